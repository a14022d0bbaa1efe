//! How much Gecode's decomposition leaves: values that no plan takes, and refusals that it misses.

use crate::check::{covers, same};
use crate::gecode::{self, Form, Outcome, Posted};
use crate::jobs::{group, Tightness, COMMON, SEED, SIZES};
use crate::plain;
use crate::planners::{GECODE, PLANNER};
use crate::table::{percent, Table};
use crate::work::{lone, values};
use danivomel_tests::cases::groups::GroupCase;
use danivomel_tests::random::Random;

/// How many groups of a size are tried.
pub fn count(n: usize) -> usize {
    (6_400 / n).clamp(20, 200)
}

/// The columns of the table of values left.
const HEAD: [&str; 9] = [
    "members",
    "limits",
    "groups",
    "values",
    "taken by plans",
    "left too many, about the mean",
    "of those to go",
    "left too many, as written",
    "of those to go, as written",
];

/// Values left that no plan takes.
pub fn run() -> Table {
    let mut table = Table::new("filtering", &HEAD);
    for n in SIZES {
        for tightness in [Tightness::Loose, Tightness::Tight] {
            let mut random = Random::new(SEED + 10_000 + n as u64);
            let mut sums = [0; 4];
            for _ in 0..count(n) {
                let case = group(&mut random, n, COMMON, tightness);
                let taken = narrowed(&case);
                sums[0] += values(&case.lows, &case.highs);
                sums[1] += values(&taken.lows, &taken.highs);
                sums[2] += left(&case, &taken, Form::Centred);
                sums[3] += left(&case, &taken, Form::Written);
            }
            let [start, taken, centred, written] = sums;
            table.add(vec![
                n.to_string(),
                format!("{tightness:?}").to_lowercase(),
                count(n).to_string(),
                start.to_string(),
                taken.to_string(),
                (centred - taken).to_string(),
                percent(centred - taken, start - taken),
                (written - taken).to_string(),
                percent(written - taken, start - taken),
            ]);
        }
    }
    table
}

/// The group as exact narrowing leaves it, by the planner and by plain Rust alike.
pub fn narrowed(case: &GroupCase) -> GroupCase {
    let (mut after, mut expected) = (case.clone(), case.clone());
    let answer = plain::narrow(&mut expected.lows, &mut expected.highs, &case.marks, case.total, case.limits);
    let found = danivomel::narrow(&mut after.lows, &mut after.highs, &case.marks, case.total, case.limits);
    same(PLANNER, "narrowing", found, answer);
    same(PLANNER, "narrowed ranges", &after, &expected);
    after
}

/// How many values Gecode leaves, among them all that plans take.
pub fn left(case: &GroupCase, taken: &GroupCase, form: Form) -> u64 {
    let mut after = case.clone();
    let posted = Posted::of(&[lone(case)]);
    let Outcome::Left(left) = gecode::propagate(&posted, &mut after.lows, &mut after.highs, form).0 else {
        panic!("Gecode refuses a group that has a plan: {case:?}");
    };
    covers(GECODE, "narrowing", (&after.lows, &after.highs), (&taken.lows, &taken.highs));
    left
}

/// Refusals missed: both limits are so many hundredths of the least figures.
pub fn run_refusals() -> Table {
    let head = [
        "members",
        "limits, of the least figures",
        "groups without a plan",
        "refused by exact narrowing",
        "missed by Gecode, about the mean",
        "missed by Gecode, as written",
    ];
    let mut table = Table::new("refusals", &head);
    for n in SIZES {
        for hundredths in [99, 90, 50] {
            let mut random = Random::new(SEED + 20_000 + n as u64);
            let (mut all, mut refused, mut missed) = (0, 0, [0; 2]);
            for _ in 0..count(n) {
                let case = group(&mut random, n, COMMON, Tightness::Below(hundredths));
                if has_no_deviation(&case) {
                    continue;
                }
                all += 1;
                refused += u64::from(is_refused(&case));
                for (missed, form) in missed.iter_mut().zip([Form::Centred, Form::Written]) {
                    let (mut lows, mut highs) = (case.lows.clone(), case.highs.clone());
                    let outcome = gecode::propagate(&Posted::of(&[lone(&case)]), &mut lows, &mut highs, form).0;
                    *missed += u64::from(outcome != Outcome::Refused);
                }
            }
            table.add(vec![
                n.to_string(),
                format!("{hundredths} %"),
                all.to_string(),
                refused.to_string(),
                missed[0].to_string(),
                missed[1].to_string(),
            ]);
        }
    }
    table
}

/// Whether a group's least deviation is 0, so that no limit is below it.
fn has_no_deviation(case: &GroupCase) -> bool {
    let mut plan = vec![0; case.lows.len()];
    danivomel_tests::independent::level(&case.lows, &case.highs, &case.marks, case.total, &mut plan)
        .is_ok_and(|levelled| levelled.deviation.0 == 0)
}

/// Whether exact narrowing refuses.
fn is_refused(case: &GroupCase) -> bool {
    let mut after = case.clone();
    danivomel::narrow(&mut after.lows, &mut after.highs, &case.marks, case.total, case.limits).is_err()
}
