//! Random groups: small ones that can be enumerated, large ones to the edges of every range, and ones about a level at
//! which most members grow; half of them with shut members.

use crate::enumerate::{deviation, pairs, running, spread, total_at, Range};
use crate::independent::level::{figures, fill_levelled, has_shares};
use crate::independent::{
    GREATEST_DEVIATION, GREATEST_PAIRS, GREATEST_SHARE, GREATEST_SPREAD, MOST_UNITS, RUNNING, SHUT,
};
use crate::random::Random;
use danivomel::{Limit, Limits};

/// One group: its ranges, its marks, its total and its limits.
#[derive(Clone, Debug, PartialEq, Eq)]
pub struct GroupCase {
    pub lows: Vec<u64>,
    pub highs: Vec<u64>,
    pub marks: Vec<u64>,
    pub total: u64,
    pub limits: Limits,
}

impl GroupCase {
    /// A group of running members' ranges, without limits.
    pub fn of(ranges: &[Range], total: u64) -> GroupCase {
        let (lows, highs) = ranges.iter().copied().unzip();
        GroupCase { lows, highs, marks: vec![RUNNING; ranges.len()], total, limits: Limits::ANY }
    }

    /// The same group with other marks.
    pub fn marked(mut self, marks: &[u64]) -> GroupCase {
        self.marks = marks.to_vec();
        self
    }

    /// The same group under other limits of deviation and spread.
    pub fn under(mut self, deviation: Limit, spread: Limit) -> GroupCase {
        self.limits = Limits { deviation, spread, ..self.limits };
        self
    }

    /// The same group under another limit of the pair differences.
    pub fn under_pairs(mut self, pairs: Limit) -> GroupCase {
        self.limits.pairs = pairs;
        self
    }

    /// The group's ranges.
    pub fn ranges(&self) -> Vec<Range> {
        self.lows.iter().copied().zip(self.highs.iter().copied()).collect()
    }

    /// The group without its shut members.
    pub fn running(&self) -> GroupCase {
        let case = GroupCase::of(&running(&self.ranges(), &self.marks), self.total);
        GroupCase { limits: self.limits, ..case }
    }
}

/// Marks for so many members: all running in half of the lists, else some shut, now and then all.
pub fn marks(random: &mut Random, n: usize) -> Vec<u64> {
    match random.between(0, 15) {
        0..=7 => vec![RUNNING; n],
        8 => vec![SHUT; n],
        _ => (0..n).map(|_| if random.once_in(3) { SHUT } else { RUNNING }).collect(),
    }
}

/// Ranges with 0 to 0 for shut members, and in such a group now and then for a running one.
fn shut_ranges(random: &mut Random, ranges: &mut [Range], marks: &[u64]) {
    let some = marks.contains(&SHUT);
    for (range, &mark) in ranges.iter_mut().zip(marks) {
        if mark == SHUT || (some && random.once_in(8)) {
            *range = (0, 0);
        }
    }
}

/// A group of 1 to 8 members with few values each, without limits; its total is in reach, or just out of it.
pub fn small(random: &mut Random) -> GroupCase {
    let n = random.between(1, 8);
    let width = match n {
        1..=3 => 9,
        4..=5 => 4,
        _ => 2,
    };
    let base = random.one_of(&[0, 0, 0, 7, 499_990, GREATEST_SHARE - 16]);
    let mut ranges = vec![];
    for _ in 0..n {
        let low = base + random.between(0, 7);
        ranges.push((low, low + random.between(0, width)));
    }
    some_shut(random, ranges)
}

/// A group of such ranges, some of its members perhaps shut, with a total in reach or just out of it.
fn some_shut(random: &mut Random, mut ranges: Vec<Range>) -> GroupCase {
    let marks = marks(random, ranges.len());
    shut_ranges(random, &mut ranges, &marks);
    let total = near(random, &ranges);
    GroupCase::of(&ranges, total).marked(&marks)
}

/// A total between one below the lows' sum and one above the highs'.
fn near(random: &mut Random, ranges: &[Range]) -> u64 {
    let lows: u64 = ranges.iter().map(|range| range.0).sum();
    let highs: u64 = ranges.iter().map(|range| range.1).sum();
    if random.once_in(8) {
        return random.one_of(&[lows.saturating_sub(1), lows, highs, highs + 1]);
    }
    random.between(lows, highs)
}

/// Limits at, just below or above the figures of some of the group's share lists; now and then a pairs limit of 0 or
/// the greatest there is.
pub fn limits_near(random: &mut Random, lists: &[Vec<u64>], case: &GroupCase) -> Limits {
    if lists.is_empty() {
        return Limits { deviation: around(random, 4), spread: around(random, 9), pairs: around(random, 6) };
    }
    let [first, second, third] = [(); 3].map(|()| running(&lists[random.index(lists.len())], &case.marks));
    Limits {
        deviation: around(random, deviation(&first, case.total).0),
        spread: around(random, spread(&second, case.total).0),
        pairs: match random.between(0, 15) {
            0..=6 => Limit::Any,
            7 => Limit::AtMost(0),
            8 => Limit::AtMost(GREATEST_PAIRS),
            _ => around(random, pairs(&third).0),
        },
    }
}

/// Any, or a limit at or next to a figure.
fn around(random: &mut Random, figure: u64) -> Limit {
    match random.between(0, 3) {
        0 => Limit::Any,
        1 => Limit::AtMost(figure.saturating_sub(1)),
        2 => Limit::AtMost(figure + 1),
        _ => Limit::AtMost(figure),
    }
}

/// A group of 1 to `most` members with values to 1,000,000, without limits.
pub fn large(random: &mut Random, most: usize) -> GroupCase {
    let n = if random.once_in(3) { most } else { random.between(1, most as u64) as usize };
    let style = random.between(0, 5);
    let centre = random.between(0, GREATEST_SHARE);
    let ranges: Vec<Range> = (0..n).map(|_| large_range(random, style, centre)).collect();
    some_shut(random, ranges)
}

/// A range of one of six styles: free, narrow, near a centre, single values, the edges, all from 0.
fn large_range(random: &mut Random, style: u64, centre: u64) -> Range {
    let mut one = |low: u64, high: u64| random.between(low, high.min(GREATEST_SHARE));
    let (first, second) = match style {
        0 => (one(0, GREATEST_SHARE), one(0, GREATEST_SHARE)),
        1 => (centre, one(centre, centre + 10)),
        2 => (one(centre.saturating_sub(1_000), centre + 1_000), one(centre.saturating_sub(1_000), centre + 1_000)),
        3 => {
            let low = one(0, GREATEST_SHARE);
            (low, one(low, low + 1))
        }
        4 => (one(0, 1) * GREATEST_SHARE, one(0, 1) * GREATEST_SHARE),
        _ => (0, one(0, GREATEST_SHARE)),
    };
    (first.min(second), first.max(second))
}

/// A group of 2 to `most` members about a level at which most of them grow. Its highs above the level are few, so that
/// many are equal, and fewer copies are left over than members grow. No range reaches farther from the level than
/// said.
pub fn growing(random: &mut Random, most: usize, reach: u64) -> GroupCase {
    let n = if random.once_in(3) { most } else { random.between(2, most as u64) as usize };
    let any = random.between(0, GREATEST_SHARE - 1);
    let level = random.one_of(&[0, GREATEST_SHARE - 1, any, any, any, any]);
    let top = (level + reach).min(GREATEST_SHARE);
    let different = random.one_of(&[1, 2, 5, n]);
    let highs: Vec<u64> = (0..different).map(|_| random.between(level + 1, top)).collect();
    let mut ranges: Vec<Range> = (0..n).map(|_| range_about(random, level, reach, &highs)).collect();
    let marks = marks(random, n);
    shut_ranges(random, &mut ranges, &marks);
    let growing = ranges.iter().filter(|range| range.0 <= level && level < range.1).count() as u64;
    let any = random.between(0, growing.max(1) - 1);
    let left = random.one_of(&[0, growing.saturating_sub(1), growing / 2, any, any]);
    GroupCase::of(&ranges, total_at(&ranges, level) + left).marked(&marks)
}

/// A range that holds the level and ends at one of some highs above it; now and then one below the level, or above it.
fn range_about(random: &mut Random, level: u64, reach: u64, highs: &[u64]) -> Range {
    let (foot, top) = (level.saturating_sub(reach), (level + reach).min(GREATEST_SHARE));
    match random.between(0, 7) {
        0 => {
            let high = random.between(foot, level);
            (random.between(foot, high), high)
        }
        1 => {
            let low = random.between(level + 1, top);
            (low, random.between(low, top))
        }
        _ => (random.between(foot, level), random.one_of(highs)),
    }
}

/// Limits at, just below, or a little above the least figures of a large group; now and then a pairs limit of 0, the
/// greatest there is, or one past it.
pub fn limits_of(random: &mut Random, case: &GroupCase) -> Limits {
    if !has_shares(&case.lows, &case.highs, case.total) {
        return Limits { deviation: around(random, 100), spread: around(random, 100), pairs: around(random, 100) };
    }
    let mut shares = [0; MOST_UNITS];
    fill_levelled(&case.lows, &case.highs, case.total, &mut shares);
    let (deviation, spread, pairs) = figures(&shares[..case.lows.len()], &case.marks, case.total);
    Limits {
        deviation: stretched(random, deviation.0, GREATEST_DEVIATION),
        spread: stretched(random, spread.0, GREATEST_SPREAD),
        pairs: match random.between(0, 31) {
            0..=13 => Limit::Any,
            14 => Limit::AtMost(0),
            15 => Limit::AtMost(GREATEST_PAIRS),
            16 => Limit::AtMost(GREATEST_PAIRS + 1),
            _ => stretched(random, pairs.0, GREATEST_PAIRS),
        },
    }
}

/// Any, or a limit from just below a figure to twice it and more.
fn stretched(random: &mut Random, figure: u64, greatest: u64) -> Limit {
    let most = match random.between(0, 11) {
        0..=2 => return Limit::Any,
        3 => figure.saturating_sub(1),
        4 | 5 => figure,
        6 => figure + random.between(1, 1_000),
        7 | 8 => figure + figure / 64 + random.between(0, 1_000_000),
        9 | 10 => figure + random.between(0, figure),
        _ => random.between(figure.min(greatest), greatest),
    };
    Limit::AtMost(most.min(greatest))
}
