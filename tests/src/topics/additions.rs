//! How often T(v) is added up: the halvings of ranges of levels of any length, and whole levellings.

use crate::cases::groups::{large, small};
use crate::check::{Checks, Topic};
use crate::independent::level::{additions, has_shares, last_that_holds};
use crate::independent::{GREATEST_SHARE, MOST_UNITS};

/// The most additions of T(v) in a levelling.
const MOST_ADDITIONS: u32 = 22;

/// Tries the independent planner's search, the way in which the proved one goes.
pub fn run(checks: &mut Checks) {
    checks.topic("additions, every short range of levels", "independent", every_short_range);
    checks.topic("additions, long ranges of levels", "independent", long_ranges);
    checks.topic("additions, levellings", "independent", levellings);
}

/// The least k with at most 2^k levels in the range.
fn halvings(levels: u64) -> u32 {
    (0..).find(|&k| levels <= 1 << k).expect("64 bits hold every number of levels")
}

/// Looks for one level of a range, and asks for no more levels than the range has halvings.
fn search(topic: &mut Topic, first: u64, levels: u64, level: u64) {
    let case = (first, levels, level);
    let (found, asked) = last_that_holds(first, first + levels, |v| v <= level);
    topic.same(&case, "level", found, level);
    topic.holds(&case, "no more levels asked for than halvings", asked <= halvings(levels));
}

/// Every level of every range of up to 256 levels.
fn every_short_range(topic: &mut Topic) {
    for levels in 1..=256 {
        let first = topic.random.between(0, GREATEST_SHARE);
        for level in first..first + levels {
            search(topic, first, levels, level);
        }
    }
}

/// Ranges about the powers of two, today's levels and twice as many, with levels drawn from them and at both ends.
fn long_ranges(topic: &mut Topic) {
    let about = (9..=21).flat_map(|k| [(1 << k) - 1, 1 << k, (1 << k) + 1]);
    for levels in about.chain([GREATEST_SHARE + 1, 2 * GREATEST_SHARE + 1]) {
        for _ in 0..200 {
            let level = topic.random.between(0, levels - 1);
            search(topic, 0, levels, level);
        }
        search(topic, 0, levels, 0);
        search(topic, 0, levels, levels - 1);
    }
    topic.same(&"today's levels", "halvings", halvings(GREATEST_SHARE + 1), 20);
    topic.same(&"twice as many", "halvings and the addition for the rest", halvings(2 * GREATEST_SHARE + 1) + 1, 22);
}

/// Whole levellings: at most 22 additions, of which some take 21.
fn levellings(topic: &mut Topic) {
    let mut most = 0;
    for round in 0..20_000 {
        let case = if round % 2 == 0 { large(&mut topic.random, MOST_UNITS) } else { small(&mut topic.random) };
        if has_shares(&case.lows, &case.highs, case.total) {
            let count = additions(&case.lows, &case.highs, case.total);
            topic.holds(&case, "at most 22 additions", count <= MOST_ADDITIONS);
            most = most.max(count);
        }
    }
    topic.same(&"all groups", "the most additions", most, 21);
}
