//! The report of a settled job, the refusal's line, and what the program writes for a job text.

use super::level::level;
use super::narrow::narrow_members;
use super::reader::{read, Job};
use super::settle::settle_job;
use super::{MOST_BYTES, MOST_UNITS, SCRATCH_PER_UNIT};
use crate::calls::lists;
use danivomel::{Range, Refusal, Reported, Unsettled};
use std::fmt::Write;

/// Settles the table, and writes the report into the buffer; on a refusal both are as they were. Answers the report's
/// length and the passes.
pub fn report(text: &[u8], table: &mut [Range], scratch: &mut [u64], buffer: &mut [u8]) -> Result<Reported, Unsettled> {
    if buffer.len() < MOST_BYTES {
        return Err(Unsettled { refusal: Refusal { number: 1, place: 0 }, passes: 0 });
    }
    let (job, passes) = settle_job(text, table, scratch.len(), narrow_members)?;
    let lines = report_lines(&job, passes, table);
    buffer[..lines.len()].copy_from_slice(lines.as_bytes());
    Ok(Reported { length: lines.len(), passes })
}

/// The report's text for a settled table.
fn report_lines(job: &Job, passes: u64, table: &[Range]) -> String {
    let mut lines = format!("(settled {passes})\n");
    for (index, range) in table[..job.lows.len()].iter().enumerate() {
        let _ = writeln!(lines, "(unit {} {} {})", index + 1, range.low, range.high);
    }
    for (index, group) in job.groups.iter().enumerate() {
        let members: Vec<Range> = group.members.iter().map(|&unit| table[unit]).collect();
        let (lows, highs) = lists(&members);
        let marks: Vec<u64> = group.members.iter().map(|&unit| job.marks[unit]).collect();
        let mut plan = vec![0; members.len()];
        let levelled = level(&lows, &highs, &marks, group.total, &mut plan).expect("a settled group has a plan");
        let (deviation, spread, pairs) = (levelled.deviation.0, levelled.spread.0, levelled.pairs.0);
        let _ = write!(lines, "(group {} {} {deviation} {spread} {pairs} (plan", index + 1, levelled.level);
        for share in plan {
            let _ = write!(lines, " {share}");
        }
        lines.push_str("))\n");
    }
    lines
}

/// The one line of a refusal.
pub fn refusal_line(refusal: Refusal) -> String {
    format!("(refused {} {})\n", refusal.number, refusal.place)
}

/// What the program writes for a job text: it reads the job, which fills the table, then reports.
pub fn program(text: &[u8]) -> Vec<u8> {
    let mut table = [Range { low: 0, high: 0 }; MOST_UNITS];
    if let Err(refusal) = read(text, &mut table) {
        return refusal_line(refusal).into_bytes();
    }
    let mut scratch = [0; SCRATCH_PER_UNIT * MOST_UNITS];
    let mut buffer = vec![0; MOST_BYTES];
    match report(text, &mut table, &mut scratch, &mut buffer) {
        Ok(reported) => {
            buffer.truncate(reported.length);
            buffer
        }
        Err(unsettled) => refusal_line(unsettled.refusal).into_bytes(),
    }
}
