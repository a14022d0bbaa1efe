//! Jobs handed on: what is written reads as the same job, a text with its own ranges is written as it stands, and a
//! settled job that was written is at rest.

use super::read::Shown;
use super::{filler_table, fillers, pairs_of, with_spare};
use crate::calls::{self, OnTexts, Report, Write};
use crate::cases::damage::damage;
use crate::cases::jobs::{print_job, sound, MIDDLE, TINY, WIDE};
use crate::cases::tables::ranges;
use crate::check::{Checks, Topic};
use crate::enumerate;
use crate::independent::reader::{read_job, Job};
use crate::independent::{MOST_BYTES, SCRATCH_PER_UNIT};
use danivomel::{Counts, Range, Refusal, Unsettled, WRITTEN_BYTES};

/// Tries what a planner writes with its other calls on a job text.
pub fn run(checks: &mut Checks, who: &str, planner: OnTexts) {
    checks.topic("write, read again", who, |topic| read_again(topic, planner));
    checks.topic("write, the text itself", who, |topic| itself(topic, planner));
    checks.topic("write, settled jobs", who, |topic| settled_jobs(topic, planner));
}

/// What is written of a job with a table.
fn written(write: Write, text: &[u8], table: &[Range]) -> Result<Vec<u8>, Refusal> {
    let mut buffer = vec![0; WRITTEN_BYTES];
    let length = write(text, table, &mut buffer)?;
    buffer.truncate(length);
    Ok(buffer)
}

/// The report of a job over a table, which it settles.
fn reported(report: Report, text: &[u8], table: &mut [Range]) -> Result<String, Unsettled> {
    let mut buffer = vec![0; MOST_BYTES];
    let length = report(text, table, &mut fillers(SCRATCH_PER_UNIT * table.len()), &mut buffer)?.length;
    Ok(String::from_utf8_lossy(&buffer[..length]).into())
}

/// What is written has the job's counts and groups and the table's ranges, and is written again as it stands.
fn read_again(topic: &mut Topic, planner: OnTexts) {
    for round in 0..3_000 {
        let job = sound(&mut topic.random, [TINY, MIDDLE, WIDE][round % 3]);
        let lent = ranges(&mut topic.random, &job);
        let text = written(planner.write, &print_job(&job), &lent).unwrap_or_default();
        let mut table = filler_table(lent.len() + 2);
        let counts = (planner.read)(&text, &mut table);
        let case = (&job, &lent);
        topic.same(&case, "counts", counts, Ok(Counts { units: lent.len(), groups: job.groups.len() }));
        topic.same(&case, "ranges", table, with_spare(&pairs_of(&lent)));
        let again = read_job(&text).map(|job| (job.marks, job.groups));
        topic.same(&case, "shut units and groups", again, Ok((job.marks.clone(), job.groups.clone())));
        topic.same(&case, "written again", written(planner.write, &text, &lent), Ok(text));
    }
}

/// Whatever text is read is written as the same bytes with the table that this filled; any other is refused alike.
fn itself(topic: &mut Topic, planner: OnTexts) {
    for _ in 0..10_000 {
        let size = topic.random.one_of(&[TINY, MIDDLE]);
        let mut text = print_job(&sound(&mut topic.random, size));
        for _ in 0..topic.random.between(0, 2) {
            damage(&mut topic.random, &mut text);
        }
        let mut table = filler_table(64);
        let expected = (planner.read)(&text, &mut table).map(|_| text.clone());
        topic.same(&Shown(&text), "written", written(planner.write, &text, &table), expected);
    }
}

/// Settled jobs are handed on; a job without a plan is written as it stands.
fn settled_jobs(topic: &mut Topic, planner: OnTexts) {
    for round in 0..3_000 {
        let small = round % 2 == 0;
        let job = sound(&mut topic.random, if small { TINY } else { MIDDLE });
        let text = print_job(&job);
        let opening = calls::table(&job.lows, &job.highs);
        let mut table = opening.clone();
        let report = match reported(planner.report, &text, &mut table) {
            Ok(report) => report,
            Err(_) => {
                topic.same(&job, "without a plan", written(planner.write, &text, &opening), Ok(text));
                continue;
            }
        };
        let text = written(planner.write, &text, &table).unwrap_or_default();
        handed(topic, planner, &job, &text, &table, &report);
        if small {
            enumerated(topic, &text, &table);
        }
    }
}

/// The text of a settled job opens with the settled table, settles in one pass that leaves it, and has the same unit
/// and group lines in its report.
fn handed(topic: &mut Topic, planner: OnTexts, job: &Job, text: &[u8], settled: &[Range], report: &str) {
    let mut table = filler_table(settled.len());
    let counts = (planner.read)(text, &mut table);
    topic.same(job, "counts", counts, Ok(Counts { units: settled.len(), groups: job.groups.len() }));
    topic.same(job, "table read", &table[..], settled);
    let passes = (planner.settle)(text, &mut table, &mut fillers(SCRATCH_PER_UNIT * settled.len()));
    topic.same(job, "passes", passes, Ok(1));
    topic.same(job, "table settled", &table[..], settled);
    let lines = report.split_once('\n').map_or("", |(_, lines)| lines);
    let again = reported(planner.report, text, &mut table);
    topic.same(job, "report", again, Ok(format!("(settled 1)\n{lines}")));
    topic.same(job, "table reported", &table[..], settled);
}

/// The text of a small settled job is at rest by enumeration too.
fn enumerated(topic: &mut Topic, text: &[u8], settled: &[Range]) {
    let job = read_job(text).unwrap_or_default();
    let mut table = pairs_of(settled);
    topic.same(&Shown(text), "passes by enumeration", enumerate::settle(&job, &mut table), Ok(1));
    topic.same(&Shown(text), "table by enumeration", table, pairs_of(settled));
}
