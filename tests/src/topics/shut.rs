//! Jobs with shut units: known reports and texts, ranges that a table must not have, and the law that a shut unit is as
//! if its line and its number were not there.

use super::read::Shown;
use super::write::Known;
use super::{fillers, table_of, with_spare};
use crate::calls::{OnTexts, Settle};
use crate::cases::jobs::{other_table, print_job, sound, MIDDLE, TINY};
use crate::cases::tables::lent;
use crate::check::{Checks, Topic};
use crate::enumerate::running;
use crate::independent::level::count_running;
use crate::independent::reader::{Group, Job};
use crate::independent::{self, GREATEST_SHARE, MOST_BYTES, RUNNING, SCRATCH_PER_UNIT, SHUT};
use danivomel::{Range, Refusal, Reported, Unsettled, WRITTEN_BYTES};

/// The specification's worked job with one more unit, the second, which is shut and named in both groups.
const WORKED: &str = "(unit 0 10)\n(shut)\n(unit 0 10)\n(unit 0 10)\n(group 10 (dev 4) (spread any) (of 1 2 3))\n(group 8 (dev any) (spread 4) (of 3 4 2))\n";

/// Its report.
const WORKED_REPORT: &str = "(settled 3)\n(unit 1 5 6)\n(unit 2 0 0)\n(unit 3 4 5)\n(unit 4 3 4)\n(group 1 5 0 0 0 (plan 5 0 5))\n(group 2 4 0 0 0 (plan 4 4 0))\n";

/// Tries a planner's calls on jobs with shut units.
pub fn run(checks: &mut Checks, who: &str, planner: OnTexts) {
    checks.topic("shut units, known reports", who, |topic| reports(topic, planner));
    checks.topic("shut units, known texts", who, |topic| texts(topic, planner));
    checks.topic("shut units, ranges of a table", who, |topic| ranges(topic, planner));
    checks.topic("shut units, left out", who, |topic| left_out(topic, planner.settle));
}

/// Compares a planner's settlings and reports on lent tables, faulty ones too, with the independent ones.
pub fn compare(checks: &mut Checks, who: &str, planner: OnTexts) {
    checks.topic("lent tables, against the independent planner", who, |topic| {
        for round in 0..3_000 {
            let job = sound(&mut topic.random, if round % 2 == 0 { TINY } else { MIDDLE });
            let (text, lent) = (print_job(&job), lent(&mut topic.random, &job));
            let case = (Shown(&text), &lent);
            let found = settled(planner.settle, &text, &lent);
            topic.same(&case, "settling", found, settled(independent::settle, &text, &lent));
            let own = OnTexts { report: independent::report, ..planner };
            topic.same(&case, "report", reported(planner, &text, &lent), reported(own, &text, &lent));
        }
    });
}

/// Settles a copy of a table: the answer and the table.
fn settled(settle: Settle, text: &[u8], lent: &[Range]) -> (Result<u64, Unsettled>, Vec<Range>) {
    let mut table = lent.to_vec();
    let answer = settle(text, &mut table, &mut fillers(SCRATCH_PER_UNIT * lent.len()));
    (answer, table)
}

/// Reports on a copy of a table: the answer, the table and the report's text.
pub fn reported(planner: OnTexts, text: &[u8], lent: &[Range]) -> (Result<Reported, Unsettled>, Vec<Range>, String) {
    let (mut table, mut buffer) = (lent.to_vec(), vec![b'~'; MOST_BYTES]);
    let answer = (planner.report)(text, &mut table, &mut fillers(SCRATCH_PER_UNIT * lent.len()), &mut buffer);
    let length = answer.map_or(0, |reported| reported.length);
    (answer, table, String::from_utf8_lossy(&buffer[..length]).into())
}

/// What is written of a job with a table.
pub fn written(planner: OnTexts, text: &[u8], table: &[Range]) -> Result<String, Refusal> {
    let mut buffer = vec![0; WRITTEN_BYTES];
    let length = (planner.write)(text, table, &mut buffer)?;
    Ok(String::from_utf8_lossy(&buffer[..length]).into())
}

/// Reads a text, and reports on the table that this fills: the report, or the refusal.
pub fn whole(planner: OnTexts, text: &str) -> Result<String, Refusal> {
    let mut table = vec![Range { low: 7, high: 7 }; 256];
    let counts = (planner.read)(text.as_bytes(), &mut table)?;
    let (answer, _, report) = reported(planner, text.as_bytes(), &table[..counts.units]);
    answer.map(|_| report).map_err(|unsettled| unsettled.refusal)
}

/// Known reports: shut units print as ranges, shut members with share 0; a unit of 0 to 0 that runs counts.
fn reports(topic: &mut Topic, planner: OnTexts) {
    let mut known = |text: &str, expected: Result<&str, (u64, u64)>| {
        let expected = expected.map(str::to_string).map_err(|(number, place)| Refusal { number, place });
        topic.same(&text, "report", whole(planner, text), expected);
    };
    known(WORKED, Ok(WORKED_REPORT));
    known(&WORKED.replace("(shut)", "(unit 0 0)"), Err((12, 1)));
    let group = |total, of| format!("(group {total} (dev 0) (spread 0) (of {of}))\n");
    let three = |second| format!("(unit 0 9)\n{second}\n(unit 0 9)\n{}", group(6, "1 2 3"));
    let even = "(settled 2)\n(unit 1 3 3)\n(unit 2 0 0)\n(unit 3 3 3)\n(group 1 1000000 0 0 0 (plan 3 0 3))\n";
    known(&three("(shut)"), Ok(even));
    known(&three("(unit 0 0)"), Err((12, 1)));
    known("(shut)\n", Ok("(settled 1)\n(unit 1 0 0)\n"));
    let all = |total| format!("(shut)\n(unit 1 4)\n(shut)\n{}", group(total, "3 1"));
    known(&all(0), Ok("(settled 1)\n(unit 1 0 0)\n(unit 2 1 4)\n(unit 3 0 0)\n(group 1 1000000 0 0 0 (plan 0 0))\n"));
    known(&all(1), Err((11, 1)));
    known(&all(256_000_000), Err((11, 1)));
    let second = format!("(shut)\n(unit 1 4)\n{}{}", group(2, "2"), group(1, "1"));
    known(&second, Err((11, 2)));
}

/// Known texts: a shut unit stays shut, settled or not, and a running one of 0 to 0 stays a unit line.
fn texts(topic: &mut Topic, planner: OnTexts) {
    let ranges = WORKED.replace("(unit 0 10)\n(unit 0 10)\n(group", "(unit 4 5)\n(unit 3 4)\n(group");
    let ranges = ranges.replacen("(unit 0 10)", "(unit 5 6)", 1);
    let cases: [Known; 5] = [
        (WORKED, &[(0, 10), (0, 0), (0, 10), (0, 10)], WORKED),
        (WORKED, &[(5, 6), (0, 0), (4, 5), (3, 4)], &ranges),
        ("(shut)\n", &[(0, 0)], "(shut)\n"),
        ("(shut)\n(unit 0 0)\n(unit 5 8)\n", &[(0, 0), (0, 0), (0, 0)], "(shut)\n(unit 0 0)\n(unit 0 0)\n"),
        ("(unit 0 0)\n(shut)\n", &[(1, 2), (0, 0)], "(unit 1 2)\n(shut)\n"),
    ];
    for (text, table, expected) in cases {
        for table in [table_of(table), with_spare(table)] {
            topic.same(&(text, &table), "text", written(planner, text.as_bytes(), &table), Ok(expected.to_string()));
        }
    }
    let text = "(shut)\n".repeat(256);
    topic.same(&"256 shut units", "text", written(planner, text.as_bytes(), &table_of(&[(0, 0); 256])), Ok(text));
}

/// A shut unit's range other than 0 to 0 is 7 at that unit, one beyond its range 4, in every call on a table; the text
/// alone says which units are shut.
fn ranges(topic: &mut Topic, planner: OnTexts) {
    for unit in 0..4 {
        let lines: Vec<&str> = (0..4).map(|line| if line == unit { "(shut)\n" } else { "(unit 0 0)\n" }).collect();
        let text = lines.concat() + "(group 27 (dev any) (spread any) (of 1 2 3 4))\n";
        for (low, high, number) in [
            (0, 1, 7),
            (1, 1, 7),
            (1, 0, 7),
            (0, GREATEST_SHARE, 7),
            (GREATEST_SHARE, GREATEST_SHARE, 7),
            (0, GREATEST_SHARE + 1, 4),
            (u64::MAX, 0, 4),
        ] {
            let mut table = with_spare(&[(0, 9); 4]);
            table[unit] = Range { low, high };
            let refusal = Refusal { number, place: unit as u64 + 1 };
            let (case, unsettled) = ((&text, &table), Err(Unsettled { refusal, passes: 0 }));
            topic.same(&case, "settling", settled(planner.settle, text.as_bytes(), &table), (unsettled, table.clone()));
            let (answer, after, report) = reported(planner, text.as_bytes(), &table);
            topic.same(&case, "reporting", answer.map(|reported| reported.passes), unsettled);
            topic.same(&case, "table and report after it", (&after, &*report), (&table, ""));
            topic.same(&case, "writing", written(planner, text.as_bytes(), &table), Err(refusal));
        }
        let mut table = vec![Range { low: 0, high: 9 }; 4];
        table[unit] = Range { low: 0, high: 0 };
        topic.same(&text, "passes with 0 to 0", settled(planner.settle, text.as_bytes(), &table).0, Ok(2));
    }
}

/// A job without its shut units, whose numbers are gone from its groups too; nothing where a group has no unit left.
fn without_shut(job: &Job) -> Option<Job> {
    let numbers: Vec<usize> = (0..job.marks.len()).map(|unit| count_running(&job.marks[..unit]) as usize).collect();
    let runs = |unit: &usize| job.marks[*unit] == RUNNING;
    let group = |group: &Group| {
        let members: Vec<usize> = group.members.iter().copied().filter(runs).map(|unit| numbers[unit]).collect();
        (!members.is_empty()).then(|| Group { members, ..group.clone() })
    };
    let groups = job.groups.iter().map(group).collect::<Option<Vec<Group>>>()?;
    let (lows, highs) = (running(&job.lows, &job.marks), running(&job.highs, &job.marks));
    Some(Job { marks: vec![RUNNING; lows.len()], lows, highs, groups }).filter(|job| !job.lows.is_empty())
}

/// A job settles, or is refused, as the job without its shut units does, which keep 0 to 0.
fn left_out(topic: &mut Topic, settle: Settle) {
    for round in 0..4_000 {
        let mut job = sound(&mut topic.random, if round % 2 == 0 { TINY } else { MIDDLE });
        (job.lows, job.highs) = other_table(&mut topic.random, &job);
        let rest = match without_shut(&job) {
            Some(rest) => rest,
            None => continue,
        };
        let [(found, table), (expected, mut left)] = [&job, &rest].map(|job| {
            let opening = crate::calls::table(&job.lows, &job.highs);
            settled(settle, &print_job(job), &opening)
        });
        topic.same(&job, "answer", found, expected);
        left.reverse();
        let mut range = |mark: u64| if mark == SHUT { Some(Range { low: 0, high: 0 }) } else { left.pop() };
        let ranges: Vec<Range> = job.marks.iter().filter_map(|&mark| range(mark)).collect();
        topic.same(&job, "table", table, ranges);
    }
}
