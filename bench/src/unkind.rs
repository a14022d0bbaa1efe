//! Groups that are unkind to a search for ends, beside the random ones.

use crate::jobs::{groups_of, Tightness, COMMON};
use danivomel::Limit;
use danivomel_tests::cases::groups::GroupCase;
use danivomel_tests::enumerate::Range;
use danivomel_tests::independent;

/// The families of groups of n members, with shares that Gecode can square.
pub fn families(n: usize) -> Vec<(&'static str, Vec<GroupCase>)> {
    let count = (256 / n as u64).clamp(2, 16);
    let middle = COMMON / 2;
    let each = |range: &dyn Fn(u64) -> Range| {
        let ranges: Vec<Range> = (0..n as u64).map(range).collect();
        (1..=count).map(|step| limited(&ranges, n as u64 * middle, step * middle / (count + 1))).collect()
    };
    let nested = |member: u64| member * middle / n as u64;
    vec![
        ("equal bounds", each(&|_| (0, COMMON))),
        ("nested ranges", each(&|member| (nested(member), COMMON - nested(member)))),
        ("one wide range", each(&|member| if member == 0 { (0, COMMON) } else { (middle - 100, middle + 100) })),
        ("limits at the least figures", groups_of(n, COMMON, Tightness::Below(100))),
    ]
}

/// A group whose limits are the figures of its most even shares with the first member so many copies above the mean, or
/// as many as the others can make up for.
fn limited(ranges: &[Range], total: u64, above: u64) -> GroupCase {
    let case = GroupCase::of(ranges, total);
    let lows: u64 = case.lows.iter().skip(1).sum();
    let (mut pinned, mut plan) = (case.clone(), vec![0; ranges.len()]);
    let value = (total / ranges.len() as u64 + above).min(case.highs[0]).min(total - lows);
    (pinned.lows[0], pinned.highs[0]) = (value, value);
    let least = independent::level(&pinned.lows, &pinned.highs, &pinned.marks, total, &mut plan);
    let least = least.expect("the other members make up for it");
    case.under(Limit::AtMost(least.deviation.0), Limit::AtMost(least.spread.0))
}
