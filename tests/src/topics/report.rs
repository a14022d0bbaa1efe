//! Reports: the worked job whole, reports built from enumeration, what the buffer keeps, and the largest report.

use super::read::Shown;
use super::settle::WORKED;
use super::{fillers, with_spare};
use crate::calls::Report;
use crate::cases::jobs::{print_job, sound, MIDDLE, TINY};
use crate::check::{Checks, Topic};
use crate::enumerate::{self, Range};
use crate::independent::{self, reader::Job};
use danivomel::{Limits, Refusal, Reported, Unsettled};

/// The report of the specification's worked job.
pub const WORKED_REPORT: &str =
    "(settled 3)\n(unit 1 5 6)\n(unit 2 4 5)\n(unit 3 3 4)\n(group 1 5 0 0 0 (plan 5 5))\n(group 2 4 0 0 0 (plan 4 4))\n";

/// The bytes of the buffer before a call.
const FILL: u8 = 0xa5;

/// What a call left: its answer, the table and the buffer.
type Left = (Result<Reported, Unsettled>, Vec<danivomel::Range>, Vec<u8>);

/// Tries a planner's report.
pub fn run(checks: &mut Checks, who: &str, report: Report) {
    checks.topic("report, worked job", who, |topic| worked(topic, report));
    checks.topic("report, built from enumeration", who, |topic| enumerated(topic, report));
    checks.topic("report, the largest", who, |topic| largest(topic, report));
}

/// Compares a planner's reports with the independent ones.
pub fn compare(checks: &mut Checks, who: &str, report: Report) {
    checks.topic("report, against the independent planner", who, |topic| {
        for _ in 0..3_000 {
            let job = sound(&mut topic.random, MIDDLE);
            let text = print_job(&job);
            let expected = attempt(independent::report, &text, &opening_of(&job), 65_600);
            let found = attempt(report, &text, &opening_of(&job), 65_600);
            topic.same(&Shown(&text), "answer, table and buffer", found, expected);
        }
    });
}

/// The table of a job's unit lines.
fn opening_of(job: &Job) -> Vec<Range> {
    job.lows.iter().copied().zip(job.highs.iter().copied()).collect()
}

/// Reports on a table with entries past the units into a filled buffer.
fn attempt(report: Report, text: &[u8], opening: &[Range], length: usize) -> Left {
    let mut table = with_spare(opening);
    let mut scratch = fillers(8 * opening.len());
    let mut buffer = vec![FILL; length];
    let answer = report(text, &mut table, &mut scratch, &mut buffer);
    (answer, table, buffer)
}

/// Checks a whole report: the answer with its passes, the bytes, the bytes past them, and the settled table.
fn check(topic: &mut Topic, report: Report, text: &[u8], opening: &[Range], expected: (u64, &str, Vec<Range>)) {
    let (passes, lines, settled) = expected;
    let length = 65_536 + topic.random.index(3);
    let mut buffer = vec![FILL; length];
    buffer[..lines.len()].copy_from_slice(lines.as_bytes());
    let (answer, table, found) = attempt(report, text, opening, length);
    let case = Shown(text);
    topic.same(&case, "answer", answer, Ok(Reported { length: lines.len(), passes }));
    topic.same(&case, "settled table", table, with_spare(&settled));
    topic.same(&case, "report", Shown(&found[..lines.len()]), Shown(lines.as_bytes()));
    topic.holds(&case, "buffer", found == buffer);
}

impl PartialEq for Shown<'_> {
    fn eq(&self, other: &Self) -> bool {
        self.0 == other.0
    }
}

/// The worked job of the specification, and single units.
fn worked(topic: &mut Topic, report: Report) {
    check(topic, report, WORKED.as_bytes(), &[(0, 10); 3], (3, WORKED_REPORT, vec![(5, 6), (4, 5), (3, 4)]));
    check(topic, report, b"(unit 3 8)\n", &[(3, 8)], (1, "(settled 1)\n(unit 1 3 8)\n", vec![(3, 8)]));
    let one = "(settled 2)\n(unit 1 7 7)\n(group 1 1000000 0 0 0 (plan 7))\n";
    check(topic, report, b"(unit 3 8)\n(group 7 (dev any) (spread any) (of 1))\n", &[(3, 8)], (2, one, vec![(7, 7)]));
}

/// The report that enumeration gives for a job.
fn by_enumeration(job: &Job, passes: u64, table: &[Range]) -> String {
    let mut lines = vec![format!("(settled {passes})")];
    for (unit, (low, high)) in table.iter().enumerate() {
        lines.push(format!("(unit {} {low} {high})", unit + 1));
    }
    for (index, group) in job.groups.iter().enumerate() {
        let ranges = enumerate::of_members(group, table);
        let marks = enumerate::of_members(group, &job.marks);
        let lists = enumerate::share_lists(&ranges, group.total);
        let plan = enumerate::levelled(&lists, &ranges, &marks, group.total).expect("a settled group has a plan");
        let level = enumerate::level(&ranges, group.total).expect("a settled group has a plan");
        let running = enumerate::running(plan, &marks);
        let deviation = enumerate::deviation(&running, group.total).0;
        let spread = enumerate::spread(&running, group.total).0;
        let pairs = enumerate::pairs(&running).0;
        let shares: Vec<String> = plan.iter().map(u64::to_string).collect();
        lines.push(format!("(group {} {level} {deviation} {spread} {pairs} (plan {}))", index + 1, shares.join(" ")));
    }
    lines.join("\n") + "\n"
}

/// Small jobs, by enumeration alone.
fn enumerated(topic: &mut Topic, report: Report) {
    for _ in 0..3_000 {
        let job = sound(&mut topic.random, TINY);
        let text = print_job(&job);
        let opening = opening_of(&job);
        let mut table = opening.clone();
        match enumerate::settle(&job, &mut table) {
            Ok(passes) => check(topic, report, &text, &opening, (passes, &by_enumeration(&job, passes, &table), table)),
            Err((number, place, passes)) => {
                refused(
                    topic,
                    report,
                    &text,
                    &opening,
                    65_536,
                    Unsettled { refusal: Refusal { number, place }, passes },
                );
            }
        }
    }
}

/// Checks a refusal, and that table and buffer kept their values.
fn refused(topic: &mut Topic, report: Report, text: &[u8], opening: &[Range], length: usize, expected: Unsettled) {
    let (answer, table, buffer) = attempt(report, text, opening, length);
    let kept = table == with_spare(opening) && buffer == vec![FILL; length];
    topic.same(&Shown(text), "refusal", answer, Err(expected));
    topic.holds(&Shown(text), "table and buffer after the refusal", kept);
}

/// 256 units and 4,096 memberships with long numbers: the report fits.
fn largest(topic: &mut Topic, report: Report) {
    let range = |unit: usize| if unit % 2 == 0 { (1_000_000, 1_000_000) } else { (100_000, 100_000) };
    let opening: Vec<Range> = (0..256).map(range).collect();
    let (lows, highs) = opening.iter().copied().unzip();
    let mut job = Job { lows, highs, marks: vec![0; 256], groups: vec![] };
    for group in 0..64 {
        let members: Vec<usize> = (0..64).map(|member| (group * 4 + member) % 256).collect();
        let total = members.iter().map(|&unit| opening[unit].0).sum();
        job.groups.push(independent::reader::Group { total, limits: Limits::ANY, says_pairs: false, members });
    }
    let text = print_job(&job);
    let expected = attempt(independent::report, &text, &opening, 65_536);
    topic.same(&"the largest report", "length", expected.0.map(|reported| reported.length > 38_000), Ok(true));
    let plan: String = (0..32).map(|_| " 1000000 100000").collect();
    let [deviation, spread, pairs] = [64 * 64 * 450_000, 64 * 64 * 450_000 * 450_000, 32 * 32 * 900_000u64];
    let line = format!("(group 64 1000000 {deviation} {spread} {pairs} (plan{plan}))\n");
    let (answer, table, buffer) = attempt(report, &text, &opening, 65_536);
    let length = answer.map_or(0, |reported| reported.length);
    topic.same(
        &"the largest report",
        "last line",
        Shown(&buffer[length - line.len().min(length)..length]),
        Shown(line.as_bytes()),
    );
    topic.same(&"the largest report", "answer and table", (answer, table), (expected.0, with_spare(&opening)));
    topic.holds(&"the largest report", "bytes", buffer == expected.2);
}
