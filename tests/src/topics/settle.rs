//! Settling jobs: the worked jobs, slow jobs, and what a call leaves in the table.

use super::read::Shown;
use super::{fillers, pairs_of, table_of, with_spare};
use crate::calls::Settle;
use crate::cases::jobs::{other_table, print_job, sound, MIDDLE, WIDE};
use crate::check::{Checks, Topic};
use crate::enumerate::{self, suits_all, Range};
use crate::independent::{self, reader::read_job};
use danivomel::{Refusal, Unsettled};

/// The specification's worked job.
pub const WORKED: &str = "(unit 0 10)\n(unit 0 10)\n(unit 0 10)\n(group 10 (dev 4) (spread any) (of 1 2))\n(group 8 (dev any) (spread 4) (of 2 3))\n";

/// Three units of 0 to 1, each pair a group with total 1.
pub const PAIRS: &str = "(unit 0 1)\n(unit 0 1)\n(unit 0 1)\n(group 1 (dev any) (spread any) (of 1 2))\n(group 1 (dev any) (spread any) (of 2 3))\n(group 1 (dev any) (spread any) (of 1 3))\n";

/// What a settling should answer, and the table that it should leave where it does not refuse.
pub type Expected = Result<(u64, Vec<Range>), Unsettled>;

/// Tries a planner's settling.
pub fn run(checks: &mut Checks, who: &str, settle: Settle) {
    checks.topic("settle, known jobs", who, |topic| known(topic, settle));
    checks.topic("settle, slow jobs", who, |topic| slow(topic, settle));
}

/// Compares a planner's settling with the independent one.
pub fn compare(checks: &mut Checks, who: &str, settle: Settle) {
    checks.topic("settle, against the independent planner", who, |topic| {
        for round in 0..1_500 {
            let size = if round % 10 == 0 { WIDE } else { MIDDLE };
            let job = sound(&mut topic.random, size);
            let (lows, highs) = other_table(&mut topic.random, &job);
            let opening: Vec<Range> = lows.into_iter().zip(highs).collect();
            let text = print_job(&job);
            let mut table = table_of(&opening);
            let answer = independent::settle(&text, &mut table, &mut vec![0; 8 * opening.len()]);
            check(topic, settle, &text, &opening, answer.map(|passes| (passes, pairs_of(&table))));
        }
    });
}

/// Settles a table with entries past the units and a scratch that holds something; compares the answer and the table.
pub fn check(topic: &mut Topic, settle: Settle, text: &[u8], opening: &[Range], expected: Expected) {
    let mut table = with_spare(opening);
    let left = match &expected {
        Ok((_, settled)) => with_spare(settled),
        Err(_) => table.clone(),
    };
    let mut scratch = fillers(8 * opening.len() + topic.random.index(3));
    let found = settle(text, &mut table, &mut scratch);
    let case = (Shown(text), opening);
    topic.same(&case, "answer", found, expected.map(|(passes, _)| passes));
    topic.same(&case, "table after the call", table, left);
}

/// A refusal for want of a plan.
pub fn no_plan(number: u64, place: u64, passes: u64) -> Expected {
    Err(Unsettled { refusal: Refusal { number, place }, passes })
}

/// The specification's jobs. A program that stops after one pass leaves unit 1 at 4 to 6.
fn known(topic: &mut Topic, settle: Settle) {
    check(topic, settle, WORKED.as_bytes(), &[(0, 10); 3], Ok((3, vec![(5, 6), (4, 5), (3, 4)])));
    check(topic, settle, WORKED.as_bytes(), &[(5, 6), (4, 5), (3, 4)], Ok((1, vec![(5, 6), (4, 5), (3, 4)])));
    check(topic, settle, WORKED.as_bytes(), &[(7, 10), (0, 10), (0, 10)], no_plan(12, 1, 1));
    check(topic, settle, WORKED.as_bytes(), &[(0, 10), (0, 10), (9, 10)], no_plan(11, 2, 1));
    // settled is not solvable: at rest at the outset, and yet no shares suit all three groups
    check(topic, settle, PAIRS.as_bytes(), &[(0, 1); 3], Ok((1, vec![(0, 1); 3])));
    let job = read_job(PAIRS.as_bytes()).unwrap_or_default();
    topic.same(&PAIRS, "shares that suit all groups", (job.groups.len(), suits_all(&job, &[(0, 1); 3])), (3, false));
    check(topic, settle, b"(unit 0 5)\n", &[(2, 3)], Ok((1, vec![(2, 3)])));
    check(
        topic,
        settle,
        b"(unit 0 5)\n(unit 3 4)\n(group 2 (dev 0) (spread 0) (of 1))\n",
        &[(0, 5), (3, 4)],
        Ok((2, vec![(2, 2), (3, 4)])),
    );
}

/// Two groups over the same two units whose totals differ by one: each pass takes one value off each end.
fn slow(topic: &mut Topic, settle: Settle) {
    for width in (0..=12u64).chain([999, 1_000, 99_999, 100_000]) {
        let group = |total, of| format!("(group {total} (dev any) (spread any) (of {of}))\n");
        let units = format!("(unit 0 {width})\n").repeat(2);
        let text = format!("{units}{}{}", group(width, "1 2"), group(width + 1, "2 1"));
        let (place, passes) = (2 - width % 2, (width + 1) / 2 + 1);
        check(topic, settle, text.as_bytes(), &[(0, width); 2], no_plan(11, place, passes));
        if width <= 12 {
            let job = read_job(text.as_bytes()).unwrap_or_default();
            let found = enumerate::settle(&job, &mut vec![(0, width); 2]);
            topic.same(&text, "passes by enumeration", found, Err((11, place, passes)));
        }
    }
}
