//! Levelling one group: the known shares, enumeration, the edges of every range, and laws of large groups.

use super::fillers;
use crate::calls::Level;
use crate::cases::groups::{large, small, GroupCase};
use crate::check::{Checks, Topic};
use crate::enumerate::{self, above, deviation, deviation_bound, pairs, running, share_lists, spread, total_at, Range};
use crate::independent::{self, GREATEST_SHARE, MOST_UNITS};
use danivomel::{Deviation, Levelled, Pairs, Refusal, Spread};

/// What a levelling should answer: the figures and the shares, or a refusal.
type Expected = Result<(Levelled, Vec<u64>), Refusal>;

/// Tries a planner's levelling.
pub fn run(checks: &mut Checks, who: &str, level: Level) {
    checks.topic("level, known shares", who, |topic| known(topic, level));
    checks.topic("level, 002's ranges for every total", who, |topic| every_total(topic, level));
    checks.topic("level, enumeration of share lists", who, |topic| enumerated(topic, level));
    checks.topic("level, every value tried", who, |topic| every_value(topic, level));
    checks.topic("level, edges", who, |topic| edges(topic, level));
    checks.topic("level, laws of large groups", who, |topic| laws(topic, level));
}

/// Compares a planner's levelling with the independent one on large groups.
pub fn compare(checks: &mut Checks, who: &str, level: Level) {
    checks.topic("level, against the independent planner", who, |topic| {
        for _ in 0..20_000 {
            let case = large(&mut topic.random, MOST_UNITS);
            let mut shares = vec![0; case.lows.len()];
            let answer = independent::level(&case.lows, &case.highs, &case.marks, case.total, &mut shares);
            check(topic, level, &case, 3, answer.map(|levelled| (levelled, shares)));
        }
    });
}

/// Levels into a plan list with spare numbers, and compares the answer and the whole list.
fn check(topic: &mut Topic, level: Level, case: &GroupCase, spare: usize, expected: Expected) {
    let n = case.lows.len();
    let before = fillers(n + spare);
    let mut plan = before.clone();
    let found = level(&case.lows, &case.highs, &case.marks, case.total, &mut plan);
    let mut after = before;
    if let Ok((_, shares)) = &expected {
        after[..n].copy_from_slice(shares);
    }
    topic.same(case, "answer", found, expected.map(|(levelled, _)| levelled));
    topic.same(case, "plan list after the call", plan, after);
}

/// An answer with shares; the figures are deviation, spread and pairs.
fn shares(level: u64, figures: [u64; 3], plan: &[u64]) -> Expected {
    let [deviation, spread, pairs] = figures;
    let (deviation, spread, pairs) = (Deviation(deviation), Spread(spread), Pairs(pairs));
    Ok((Levelled { level, deviation, spread, pairs }, plan.to_vec()))
}

/// A refusal.
fn refused(number: u64, place: u64) -> Expected {
    Err(Refusal { number, place })
}

/// The specification's known shares, and examples 1, 2, 3 and 5 of 001.
fn known(topic: &mut Topic, level: Level) {
    let first = [(8, 10), (4, 7), (1, 5), (3, 4)];
    check(topic, level, &GroupCase::of(&first, 20), 2, shares(4, [24, 48, 12], &[8, 4, 4, 4]));
    check(topic, level, &GroupCase::of(&first, 17), 2, shares(2, [30, 83, 19], &[8, 4, 2, 3]));
    topic.same(&first, "001, example 3: n times 2 × max(1, 3)", deviation_bound(&first, 20), 4 * 6);
    let ten = [(0, 1); 10];
    check(topic, level, &GroupCase::of(&ten, 5), 2, shares(0, [50, 25, 25], &[1, 1, 1, 1, 1, 0, 0, 0, 0, 0]));
    let three = [(1, 3), (2, 6), (3, 9)];
    check(topic, level, &GroupCase::of(&three, 10), 0, shares(3, [4, 2, 2], &[3, 3, 4]));
    check(topic, level, &GroupCase::of(&three, 9), 0, shares(3, [0, 0, 0], &[3, 3, 3]));
    check(topic, level, &GroupCase::of(&three, 6), 0, shares(1, [6, 6, 4], &[1, 2, 3]));
    check(topic, level, &GroupCase::of(&three, 18), 0, shares(1_000_000, [18, 54, 12], &[3, 6, 9]));
    check(topic, level, &GroupCase::of(&three, 5), 0, refused(11, 0));
    check(topic, level, &GroupCase::of(&three, 19), 0, refused(11, 0));
    check(topic, level, &GroupCase::of(&[(0, 10); 3], 10), 0, shares(3, [4, 2, 2], &[4, 3, 3]));
    check(topic, level, &GroupCase::of(&[(0, 2), (0, 9), (0, 9)], 11), 0, shares(4, [10, 14, 6], &[2, 5, 4]));
    check(topic, level, &GroupCase::of(&[(0, 0), (0, 9)], 7), 0, shares(7, [14, 49, 7], &[0, 7]));
}

/// What enumeration says of a levelling.
fn by_enumeration(case: &GroupCase, lists: &[Vec<u64>]) -> Expected {
    let plan = match enumerate::levelled(lists, &case.ranges(), &case.marks, case.total) {
        Some(plan) => plan,
        None => return refused(11, 0),
    };
    let level = enumerate::level(&case.ranges(), case.total).expect("the lows are within the total");
    let shares = running(plan, &case.marks);
    let (deviation, spread, pairs) = (deviation(&shares, case.total), spread(&shares, case.total), pairs(&shares));
    Ok((Levelled { level, deviation, spread, pairs }, plan.clone()))
}

/// 002's example for every total, and beyond.
fn every_total(topic: &mut Topic, level: Level) {
    for total in 0..=25 {
        let case = GroupCase::of(&[(1, 3), (2, 6), (3, 9)], total);
        let lists = share_lists(&case.ranges(), total);
        check(topic, level, &case, 1, by_enumeration(&case, &lists));
    }
}

/// Small groups: the shares, and that no share list has a lesser figure or less in total above any t.
fn enumerated(topic: &mut Topic, level: Level) {
    for _ in 0..20_000 {
        let case = small(&mut topic.random);
        let lists = share_lists(&case.ranges(), case.total);
        let expected = by_enumeration(&case, &lists);
        if let Ok((levelled, plan)) = &expected {
            least_of_all(topic, &case, &lists, levelled, plan);
        }
        let spare = topic.random.index(4);
        check(topic, level, &case, spare, expected);
    }
}

/// No share list has a lesser deviation, lesser pair differences, or less in total above any t; all three are the
/// running members'.
fn least_of_all(topic: &mut Topic, case: &GroupCase, lists: &[Vec<u64>], found: &Levelled, plan: &[u64]) {
    let lists: Vec<Vec<u64>> = lists.iter().map(|list| running(list, &case.marks)).collect();
    let least = lists.iter().map(|list| deviation(list, case.total)).min();
    topic.same(case, "least deviation", least, Some(found.deviation));
    topic.same(case, "least pairs", lists.iter().map(|list| pairs(list)).min(), Some(found.pairs));
    let lowest = running(&case.lows, &case.marks).into_iter().min().unwrap_or(0);
    for t in lowest..lowest + 18 {
        let least = lists.iter().map(|list| above(list, t)).min();
        topic.same(case, "least total above t", least, Some(above(&running(plan, &case.marks), t)));
    }
}

/// The level by trying each of 1,000,001 values, for a few groups.
fn every_value(topic: &mut Topic, level: Level) {
    for _ in 0..20 {
        let case = large(&mut topic.random, 8);
        let ranges = case.ranges();
        let greatest = (0..=GREATEST_SHARE).rev().find(|&v| total_at(&ranges, v) <= case.total);
        let mut plan = fillers(8);
        match level(&case.lows, &case.highs, &case.marks, case.total, &mut plan) {
            Ok(levelled) => topic.same(&case, "level", Some(levelled.level), greatest),
            Err(refusal) => topic.same(&case, "refusal", refusal, Refusal { number: 11, place: 0 }),
        }
    }
}

/// The edges of every range, and numbers that would wrap.
fn edges(topic: &mut Topic, level: Level) {
    let top = GREATEST_SHARE;
    check(topic, level, &GroupCase::of(&[(0, top)], 5), 0, shares(5, [0, 0, 0], &[5]));
    check(topic, level, &GroupCase::of(&[(0, top)], 0), 0, shares(0, [0, 0, 0], &[0]));
    check(topic, level, &GroupCase::of(&[(0, top)], top), 0, shares(top, [0, 0, 0], &[top]));
    check(topic, level, &GroupCase::of(&[(0, top)], top + 1), 0, refused(11, 0));
    check(topic, level, &GroupCase::of(&[(0, 0)], 0), 0, shares(top, [0, 0, 0], &[0]));
    check(topic, level, &GroupCase::of(&[(7, 7)], 7), 0, shares(top, [0, 0, 0], &[7]));
    check(
        topic,
        level,
        &GroupCase::of(&[(0, top), (0, top)], 2 * top - 1),
        0,
        shares(top - 1, [2, 1, 1], &[top, top - 1]),
    );
    check(topic, level, &GroupCase::of(&[(0, top); 256], 256 * top), 0, shares(top, [0, 0, 0], &[top; 256]));
    check(topic, level, &GroupCase::of(&[(0, top); 256], 256 * top), 300, shares(top, [0, 0, 0], &[top; 256]));
    check(topic, level, &GroupCase::of(&[(top, top); 256], 256 * top), 0, shares(top, [0, 0, 0], &[top; 256]));
    check(topic, level, &GroupCase::of(&[(top, top); 256], 256 * top - 1), 0, refused(11, 0));
    check(topic, level, &GroupCase::of(&[(0, top); 256], 256 * top + 1), 0, refused(4, 0));
    check(topic, level, &GroupCase::of(&[(0, top); 257], 5), 0, refused(1, 0));
    check(topic, level, &GroupCase::of(&[], 0), 4, refused(1, 0));
    check(topic, level, &GroupCase::of(&[(0, top + 1)], 5), 0, refused(4, 1));
    check(topic, level, &GroupCase::of(&[(u64::MAX, u64::MAX); 2], u64::MAX), 0, refused(4, 1));
    check(topic, level, &GroupCase::of(&[(0, top), (0, u64::MAX)], u64::MAX), 0, refused(4, 2));
    let mut halves = [(0, 0); 256];
    halves[128..].fill((top, top));
    let plan: Vec<u64> = halves.iter().map(|range| range.0).collect();
    check(
        topic,
        level,
        &GroupCase::of(&halves, 128 * top),
        0,
        shares(top, [256 * 128 * top, 128 * 128 * top * top, 128 * 128 * top], &plan),
    );
}

/// Large groups: what the specification says of the level, the shares and the figures.
fn laws(topic: &mut Topic, level: Level) {
    for _ in 0..4_000 {
        let case = large(&mut topic.random, MOST_UNITS);
        let ranges = case.ranges();
        let mut plan = vec![0; ranges.len()];
        match level(&case.lows, &case.highs, &case.marks, case.total, &mut plan) {
            Ok(levelled) => levelled_by_law(topic, &case, levelled, &plan),
            Err(refusal) => {
                let apart = total_at(&ranges, 0) > case.total || total_at(&ranges, GREATEST_SHARE) < case.total;
                topic.same(&case, "refusal", (refusal, apart), (Refusal { number: 11, place: 0 }, true));
            }
        }
    }
}

/// The level is the greatest, a member takes one of the copies left over where fewer growing members than these come
/// ahead of it, and the figures are the shares' own.
fn levelled_by_law(topic: &mut Topic, case: &GroupCase, levelled: Levelled, plan: &[u64]) {
    let (ranges, v) = (case.ranges(), levelled.level);
    let greatest = v == GREATEST_SHARE || (v < GREATEST_SHARE && total_at(&ranges, v + 1) > case.total);
    topic.holds(case, "the greatest level", total_at(&ranges, v) <= case.total && greatest);
    let left = case.total - total_at(&ranges, v);
    let grows = |&(low, high): &Range| low <= v && v < high;
    for (member, &(low, high)) in ranges.iter().enumerate() {
        let is_ahead = |(other, range): &(usize, &Range)| range.1 > high || (range.1 == high && *other < member);
        let ahead = ranges.iter().enumerate().filter(is_ahead).filter(|(_, range)| grows(range)).count() as u64;
        let more = u64::from(grows(&(low, high)) && ahead < left);
        topic.same(case, "share", plan[member], v.min(high).max(low) + more);
    }
    topic.same(case, "total", plan.iter().sum::<u64>(), case.total);
    let shares = running(plan, &case.marks);
    topic.same(case, "deviation", levelled.deviation, deviation(&shares, case.total));
    topic.same(case, "spread", levelled.spread, spread(&shares, case.total));
    topic.same(case, "pairs", levelled.pairs, pairs(&shares));
    let bound = deviation_bound(&running(&ranges, &case.marks), case.total);
    let divides = shares.is_empty() || case.total % shares.len() as u64 == 0;
    topic.holds(case, "bound", levelled.deviation.0 >= bound && (!divides || levelled.deviation.0 == bound));
}
