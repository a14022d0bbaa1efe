//! Settled tables: held to the enumeration of all tables of small jobs, and to the laws of settling.

use super::settle::{check, no_plan, Expected};
use super::{pairs_of, table_of};
use crate::calls::Settle;
use crate::cases::jobs::{other_table, print_job, sound, MIDDLE, TINY};
use crate::check::{Checks, Topic};
use crate::enumerate::{self, inside, tables_at_rest, Range};
use crate::independent::reader::Job;

/// Tries a planner's settled tables.
pub fn run(checks: &mut Checks, who: &str, settle: Settle) {
    checks.topic("settle, enumeration of tables", who, |topic| enumerated(topic, settle));
    checks.topic("settle, laws", who, |topic| laws(topic, settle));
    checks.topic("settle, any order of groups", who, |topic| orders(topic, settle));
}

/// The table of a job's unit lines, or another one.
fn opening_of(topic: &mut Topic, job: &Job) -> Vec<Range> {
    let (lows, highs) = match topic.random.once_in(2) {
        true => other_table(&mut topic.random, job),
        false => (job.lows.clone(), job.highs.clone()),
    };
    lows.into_iter().zip(highs).collect()
}

/// Small jobs: of all tables at rest inside the opening one the settled table is the widest; where there is none,
/// the job is refused; the passes are those of enumerated turns.
fn enumerated(topic: &mut Topic, settle: Settle) {
    for _ in 0..5_000 {
        let job = sound(&mut topic.random, TINY);
        let opening = opening_of(topic, &job);
        let mut table = opening.clone();
        let answer = enumerate::settle(&job, &mut table);
        let at_rest = tables_at_rest(&job, &opening);
        let case = (&job, &opening);
        match answer {
            Ok(_) => {
                topic.holds(&case, "at rest", at_rest.contains(&table));
                topic.holds(&case, "the widest", at_rest.iter().all(|other| inside(other, &table)));
            }
            Err(_) => topic.same(&case, "tables at rest where none is found", at_rest.len(), 0),
        }
        let expected: Expected = match answer {
            Ok(passes) => Ok((passes, table)),
            Err((number, place, passes)) => no_plan(number, place, passes),
        };
        check(topic, settle, &print_job(&job), &opening, expected);
    }
}

/// Settles a table; the passes and the settled table, or nothing where there is no plan.
fn settled(settle: Settle, text: &[u8], opening: &[Range]) -> Option<(u64, Vec<Range>)> {
    let mut table = table_of(opening);
    let passes = settle(text, &mut table, &mut vec![0; 8 * opening.len()]).ok()?;
    Some((passes, pairs_of(&table)))
}

/// Larger jobs: inside the opening table, passes within their bound, units in no group untouched, and settling what
/// is settled takes one pass.
fn laws(topic: &mut Topic, settle: Settle) {
    for _ in 0..1_500 {
        let job = sound(&mut topic.random, MIDDLE);
        let opening = opening_of(topic, &job);
        let text = print_job(&job);
        let (passes, table) = match settled(settle, &text, &opening) {
            Some(found) => found,
            None => continue,
        };
        let case = (&job, &opening);
        let room: u64 = opening.iter().map(|range| range.1 - range.0).sum();
        topic.holds(&case, "inside the opening table", inside(&table, &opening));
        topic.holds(&case, "passes within their bound", (1..=1 + room).contains(&passes));
        for unit in 0..opening.len() {
            let named = job.groups.iter().any(|group| group.members.contains(&unit));
            topic.holds(&case, "units in no group", named || table[unit] == opening[unit]);
        }
        check(topic, settle, &text, &table, Ok((1, table.clone())));
    }
}

/// The groups in another order give the same table, or no plan again.
fn orders(topic: &mut Topic, settle: Settle) {
    for _ in 0..1_500 {
        let mut job = sound(&mut topic.random, MIDDLE);
        let opening = opening_of(topic, &job);
        let first = settled(settle, &print_job(&job), &opening).map(|(_, table)| table);
        topic.random.shuffle(&mut job.groups);
        let second = settled(settle, &print_job(&job), &opening).map(|(_, table)| table);
        topic.same(&(&job, &opening), "table in another order", second, first);
    }
}
