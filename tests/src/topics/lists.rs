//! Refusals of the calls on lists of one group: every set of faults at once, so every refusal with every other one
//! behind it; and every number of every list after each.

use super::faults::{each_combination, fault, Fault};
use super::fillers;
use crate::calls::{Level, Narrow};
use crate::check::Checks;
use danivomel::{Limit, Limits, Refusal};

/// What a call on lists gets.
#[derive(Clone, Debug, PartialEq, Eq)]
struct Lists {
    lows: Vec<u64>,
    highs: Vec<u64>,
    marks: Vec<u64>,
    total: u64,
    limits: Limits,
    plan: usize,
}

/// Tries a planner's refusals of levelling.
pub fn run_level(checks: &mut Checks, who: &str, level: Level) {
    checks.topic("level, refusals in every combination", who, |topic| {
        each_combination(&sound(), &level_faults(), |lists, expected| {
            let mut plan = fillers(lists.plan);
            let found = level(&lists.lows, &lists.highs, &lists.marks, lists.total, &mut plan);
            topic.same(lists, "refusal", found.map(|_| ()), Err(expected));
            topic.same(lists, "plan list after the refusal", plan, fillers(lists.plan));
        });
    });
}

/// Tries a planner's refusals of narrowing.
pub fn run_narrow(checks: &mut Checks, who: &str, narrow: Narrow) {
    checks.topic("narrow, refusals in every combination", who, |topic| {
        let mut refused = |lists: &Lists, expected: Refusal| {
            let mut after = lists.clone();
            let found = narrow(&mut after.lows, &mut after.highs, &lists.marks, lists.total, lists.limits);
            topic.same(lists, "refusal", found, Err(expected));
            topic.same(lists, "lists after the refusal", &after, lists);
        };
        each_combination(&sound(), &narrow_faults(shape_faults(), false), &mut refused);
        // with one fault of the lists' lengths: with all six there are four million sets
        let marks = fault(1, 0, |lists: &mut Lists| lists.marks.truncate(4));
        each_combination(&sound(), &narrow_faults(vec![marks], true), &mut refused);
    });
}

/// A group without a fault, whose third member is shut; its least figures are above 1.
fn sound() -> Lists {
    Lists {
        lows: vec![10, 10, 0, 10, 50],
        highs: vec![20, 30, 0, 40, 60],
        marks: vec![0, 0, 1, 0, 0],
        total: 120,
        limits: Limits::ANY,
        plan: 5,
    }
}

/// The faults of a levelling in the order in which they are looked for.
fn level_faults() -> Vec<Fault<Lists>> {
    let mut faults = shape_faults();
    faults.push(fault(1, 0, |lists| lists.plan = lists.lows.len().saturating_sub(1)));
    faults.extend(unit_faults());
    faults.push(fault(4, 0, |lists| lists.total = 256_000_001));
    faults.push(fault(4, 0, |lists| lists.total = u64::MAX));
    faults.extend(order_faults());
    faults.push(fault(11, 0, |lists| lists.total = 79));
    faults.push(fault(11, 0, |lists| lists.total = 151));
    faults
}

/// The faults of a narrowing in the order in which they are looked for, behind those of the lists' lengths; with those of
/// the pairs limit or without.
fn narrow_faults(shape: Vec<Fault<Lists>>, with_pairs: bool) -> Vec<Fault<Lists>> {
    let mut faults = shape;
    faults.extend(unit_faults());
    faults.push(fault(4, 0, |lists| lists.total = 256_000_001));
    faults.push(fault(4, 0, |lists| lists.limits.deviation = Limit::AtMost(100_000_000_001)));
    faults.push(fault(4, 0, |lists| lists.limits.spread = Limit::AtMost(100_000_000_000_000_001)));
    if with_pairs {
        faults.push(fault(4, 0, |lists| lists.limits.pairs = Limit::AtMost(100_000_000_001)));
    }
    faults.extend(order_faults());
    faults.push(fault(11, 0, |lists| lists.total = 151));
    faults.push(fault(12, 0, |lists| lists.limits.deviation = Limit::AtMost(1)));
    faults.push(fault(12, 0, |lists| lists.limits.spread = Limit::AtMost(1)));
    if with_pairs {
        faults.push(fault(12, 0, |lists| lists.limits.pairs = Limit::AtMost(1)));
    }
    faults
}

/// Lists empty, of unequal length, or over 256.
fn shape_faults() -> Vec<Fault<Lists>> {
    vec![
        fault(1, 0, |lists| {
            lists.lows.clear();
            lists.highs.clear();
        }),
        fault(1, 0, |lists| lists.lows.truncate(3)),
        fault(1, 0, |lists| lists.highs.truncate(2)),
        fault(1, 0, |lists| lists.marks.truncate(4)),
        fault(1, 0, |lists| lists.marks.resize(6, 0)),
        fault(1, 0, |lists| {
            lists.lows.resize(257, 10);
            lists.highs.resize(257, 20);
            lists.marks.resize(257, 0);
            lists.plan = 257;
        }),
    ]
}

/// Numbers of units beyond their range, marks among them.
fn unit_faults() -> Vec<Fault<Lists>> {
    vec![
        fault(4, 1, |lists| lists.lows[0] = 1_000_001),
        fault(4, 2, |lists| lists.marks[1] = 2),
        fault(4, 3, |lists| lists.marks[2] = u64::MAX),
        fault(4, 4, |lists| lists.highs[3] = u64::MAX),
    ]
}

/// Lows above highs, a shut member with a range, and a member with a range that is marked as shut.
fn order_faults() -> Vec<Fault<Lists>> {
    vec![
        fault(7, 2, |lists| lists.lows[1] = 31),
        fault(7, 3, |lists| lists.highs[2] = 1),
        fault(7, 4, |lists| lists.highs[3] = 9),
        fault(7, 5, |lists| lists.marks[4] = 1),
    ]
}
