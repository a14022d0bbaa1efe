//! A shut unit from Rust: the job of off-shut.job, where unit 2 is off the run. A table must have the range 0 to 0 for
//! it; any other range is refused with 7, and the place is the unit. Then the same group by lists, with marks: shut the
//! unit is left out of the figures, running with the range 0 to 0 it counts, and the limit cannot be met.

use danivomel::{level, narrow, read, settle, Limit, Limits, Range, Refusal, RUNNING, SCRATCH_PER_UNIT, SHUT};

/// The units of the job.
const UNITS: usize = 4;

/// The job text.
const JOB: &str = "\
(unit 0 40000)
(shut)
(unit 0 40000)
(unit 0 40000)
(group 90000 (dev 4500) (spread any) (of 1 2 3 4))
";

/// The lows and highs of the group as lists.
const LOWS: [u64; UNITS] = [0, 0, 0, 0];
const HIGHS: [u64; UNITS] = [40_000, 0, 40_000, 40_000];

/// 500 copies off the mean on average, over three running units: 3 × 3 × 500.
const LIMITS: Limits = Limits { deviation: Limit::AtMost(4_500), ..Limits::ANY };

fn main() {
    show(settled(Range { low: 0, high: 5 }));
    show(settled(Range { low: 0, high: 0 }));
    for second in [SHUT, RUNNING] {
        let marks = [RUNNING, second, RUNNING, RUNNING];
        show(levelled(&marks));
        show(narrowed(&marks));
    }
}

/// Prints lines, or a refusal as a report does.
fn show(lines: Result<String, Refusal>) {
    match lines {
        Ok(lines) => print!("{lines}"),
        Err(refusal) => println!("(refused {} {})", refusal.number, refusal.place),
    }
}

/// A unit's range as a report has it.
fn unit(index: usize, low: u64, high: u64) -> String {
    format!("(unit {} {low} {high})\n", index + 1)
}

/// Settles the job from the unit lines' ranges but for one range of unit 2; the table that this leaves.
fn settled(second: Range) -> Result<String, Refusal> {
    let mut table = [Range::default(); UNITS];
    read(JOB.as_bytes(), &mut table)?;
    table[1] = second;
    let passes =
        settle(JOB.as_bytes(), &mut table, &mut [0; SCRATCH_PER_UNIT * UNITS]).map_err(|error| error.refusal)?;
    let lines: String = table.iter().enumerate().map(|(index, range)| unit(index, range.low, range.high)).collect();
    Ok(format!("(settled {passes})\n{lines}"))
}

/// Levels the group by lists; its line as a report has it.
fn levelled(marks: &[u64]) -> Result<String, Refusal> {
    let mut plan = [0; UNITS];
    let found = level(&LOWS, &HIGHS, marks, 90_000, &mut plan)?;
    let shares: String = plan.iter().map(|share| format!(" {share}")).collect();
    let (deviation, spread, pairs) = (found.deviation.0, found.spread.0, found.pairs.0);
    Ok(format!("(group 1 {} {deviation} {spread} {pairs} (plan{shares}))\n", found.level))
}

/// Narrows the group by lists; the ranges that this leaves.
fn narrowed(marks: &[u64]) -> Result<String, Refusal> {
    let (mut lows, mut highs) = (LOWS, HIGHS);
    narrow(&mut lows, &mut highs, marks, 90_000, LIMITS)?;
    Ok((0..UNITS).map(|index| unit(index, lows[index], highs[index])).collect())
}
