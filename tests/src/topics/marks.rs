//! Shut members on the lists of one group: known shares and ranges, and the law that a shut member is as if it were not
//! in the group.

use super::fillers;
use crate::calls::{Level, Narrow};
use crate::cases::groups::{large, limits_of, small, GroupCase};
use crate::check::{Checks, Topic};
use crate::enumerate::Range;
use crate::independent::{GREATEST_SHARE, RUNNING, SHUT};
use danivomel::{Deviation, Levelled, Limit, Pairs, Refusal, Spread};
use Limit::{Any, AtMost};

/// What a narrowing should leave: the ranges, or a refusal.
type Ranges = Result<Vec<Range>, Refusal>;

/// Tries a planner's levelling and narrowing of groups with shut members.
pub fn run(checks: &mut Checks, who: &str, level: Level, narrow: Narrow) {
    checks.topic("level, known shares with shut members", who, |topic| known_shares(topic, level));
    checks.topic("narrow, known ranges with shut members", who, |topic| known_ranges(topic, narrow));
    checks.topic("level and narrow, refusals at shut members", who, |topic| refusals(topic, level, narrow));
    checks.topic("level and narrow, shut members left out", who, |topic| left_out(topic, level, narrow));
}

/// Levels a group into a list of its own: the answer, and the list.
fn levelled(level: Level, case: &GroupCase) -> (Result<Levelled, Refusal>, Vec<u64>) {
    let mut plan = fillers(case.lows.len());
    let answer = level(&case.lows, &case.highs, &case.marks, case.total, &mut plan);
    (answer, plan)
}

/// Narrows a copy of a group; where it is refused, the ranges must have kept their values.
fn narrowed(topic: &mut Topic, narrow: Narrow, case: &GroupCase) -> Ranges {
    let mut after = case.clone();
    let answer = narrow(&mut after.lows, &mut after.highs, &case.marks, case.total, case.limits);
    topic.holds(case, "ranges after a refusal", answer.is_ok() || after == *case);
    answer.map(|()| after.ranges())
}

/// A refusal.
fn refused<T>(number: u64, place: u64) -> Result<T, Refusal> {
    Err(Refusal { number, place })
}

/// Known shares: a level, the three figures and the shares, for a group with marks.
fn known_shares(topic: &mut Topic, level: Level) {
    let mut shares = |case: GroupCase, levels: [u64; 4], plan: &[u64]| {
        let [at, deviation, spread, pairs] = levels;
        let (deviation, spread, pairs) = (Deviation(deviation), Spread(spread), Pairs(pairs));
        let expected = Levelled { level: at, deviation, spread, pairs };
        topic.same(&case, "answer and shares", levelled(level, &case), (Ok(expected), plan.to_vec()));
    };
    let top = GREATEST_SHARE;
    let five = || GroupCase::of(&[(8, 10), (0, 0), (4, 7), (1, 5), (3, 4)], 20);
    shares(five().marked(&[0, 1, 0, 0, 0]), [4, 24, 48, 12], &[8, 0, 4, 4, 4]);
    shares(five(), [4, 40, 160, 32], &[8, 0, 4, 4, 4]);
    let two = || GroupCase::of(&[(0, 0), (0, 9)], 7);
    shares(two().marked(&[1, 0]), [7, 0, 0, 0], &[0, 7]);
    shares(two(), [7, 14, 49, 7], &[0, 7]);
    let three = || GroupCase::of(&[(0, 10), (0, 0), (0, 10), (0, 0), (0, 10)], 10);
    shares(three().marked(&[0, 1, 0, 1, 0]), [3, 4, 2, 2], &[4, 0, 3, 0, 3]);
    shares(three().marked(&[0, 0, 0, 1, 0]), [3, 20, 36, 12], &[4, 0, 3, 0, 3]);
    // where all are shut, the level is the greatest of all: no copy is left over at any level
    for n in [1, 2, 256] {
        shares(GroupCase::of(&vec![(0, 0); n], 0).marked(&vec![SHUT; n]), [top, 0, 0, 0], &vec![0; n]);
    }
    shares(GroupCase::of(&[(0, 0), (5, 5)], 5).marked(&[1, 0]), [top, 0, 0, 0], &[0, 5]);
    let mut half = [(0, 0); 256];
    half[128..].fill((0, top));
    let marks: Vec<u64> = half.iter().map(|range| if range.1 == 0 { SHUT } else { RUNNING }).collect();
    let plan: Vec<u64> = half.iter().map(|range| range.1).collect();
    shares(GroupCase::of(&half, 128 * top).marked(&marks), [top, 0, 0, 0], &plan);
}

/// Known ranges: those of the press with a shut member, and limits that only leaving it out meets.
fn known_ranges(topic: &mut Topic, narrow: Narrow) {
    let mut left = |case: GroupCase, expected: Ranges| {
        let found = narrowed(topic, narrow, &case);
        topic.same(&case, "ranges", found, expected);
    };
    let five = || GroupCase::of(&[(8, 10), (4, 7), (0, 0), (1, 5), (3, 4)], 20);
    let shut = || five().marked(&[0, 0, 1, 0, 0]);
    let some = vec![(8, 8), (4, 5), (0, 0), (3, 5), (3, 4)];
    left(shut().under(AtMost(28), Any), Ok(some.clone()));
    left(shut().under(Any, AtMost(56)), Ok(some));
    left(shut().under(AtMost(24), AtMost(48)), Ok(vec![(8, 8), (4, 4), (0, 0), (4, 4), (4, 4)]));
    left(shut().under_pairs(AtMost(16)), Ok(vec![(8, 8), (4, 5), (0, 0), (3, 5), (3, 4)]));
    left(shut().under_pairs(AtMost(15)), Ok(vec![(8, 8), (4, 4), (0, 0), (4, 4), (4, 4)]));
    left(shut().under_pairs(AtMost(11)), refused(12, 0));
    left(shut().under(AtMost(23), Any), refused(12, 0));
    left(shut().under(Any, AtMost(47)), refused(12, 0));
    left(five().under(AtMost(28), Any), refused(12, 0));
    left(five().under(AtMost(39), Any), refused(12, 0));
    left(five().under(AtMost(40), AtMost(160)), Ok(vec![(8, 8), (4, 4), (0, 0), (4, 4), (4, 4)]));
    left(five().under_pairs(AtMost(31)), refused(12, 0));
    left(five().under_pairs(AtMost(32)), Ok(vec![(8, 8), (4, 4), (0, 0), (4, 4), (4, 4)]));
    let all = |total| GroupCase::of(&[(0, 0), (0, 0)], total).marked(&[1, 1]).under_pairs(AtMost(0));
    left(all(0).under(AtMost(0), AtMost(0)), Ok(vec![(0, 0), (0, 0)]));
    left(all(1), refused(11, 0));
    left(all(1).under(AtMost(0), AtMost(0)), refused(11, 0));
    left(all(256_000_000), refused(11, 0));
    let one = GroupCase::of(&[(0, 0), (0, 9), (0, 0)], 4).marked(&[1, 0, 1]);
    left(one.under(AtMost(0), AtMost(0)).under_pairs(AtMost(0)), Ok(vec![(0, 0), (4, 4), (0, 0)]));
}

/// Every wrong range of a shut member, every wrong mark and every wrong number of marks, at each of three members.
fn refusals(topic: &mut Topic, level: Level, narrow: Narrow) {
    let mut both = |case: &GroupCase, number: u64, place: u64| {
        let (answer, plan) = levelled(level, case);
        topic.same(case, "levelling", answer, refused(number, place));
        topic.same(case, "plan list after the refusal", plan, fillers(case.lows.len()));
        let found = narrowed(topic, narrow, case);
        topic.same(case, "narrowing", found, refused(number, place));
    };
    for member in 0..3 {
        let mut marks = [RUNNING; 3];
        marks[member] = SHUT;
        let place = member as u64 + 1;
        for (range, number) in [
            ((0, 1), 7),
            ((1, 1), 7),
            ((1, 0), 7),
            ((0, GREATEST_SHARE), 7),
            ((0, GREATEST_SHARE + 1), 4),
            ((u64::MAX, 0), 4),
        ] {
            let mut ranges = [(0, 9); 3];
            ranges[member] = range;
            both(&GroupCase::of(&ranges, 9).marked(&marks), number, place);
        }
        for mark in [2, 3, 1 << 32, u64::MAX] {
            marks[member] = mark;
            both(&GroupCase::of(&[(0, 0); 3], 0).marked(&marks), 4, place);
        }
    }
    for length in [0, 1, 2, 4, 256, 257] {
        both(&GroupCase::of(&[(0, 0); 3], 0).marked(&vec![RUNNING; length]), 1, 0);
        both(&GroupCase::of(&[(0, 0); 3], 0).marked(&vec![SHUT; length]), 1, 0);
    }
}

/// With a shut member, a group is levelled and narrowed as without it, and the member has 0.
fn left_out(topic: &mut Topic, level: Level, narrow: Narrow) {
    for round in 0..6_000 {
        let mut case = if round % 3 == 0 { large(&mut topic.random, 40) } else { small(&mut topic.random) };
        case.limits = limits_of(&mut topic.random, &case);
        let rest = case.running();
        if rest.lows.is_empty() {
            continue;
        }
        let (answer, plan) = levelled(level, &case);
        let (expected, shares) = levelled(level, &rest);
        topic.same(&case, "level and figures", answer, expected);
        if answer.is_ok() {
            topic.same(&case, "shares", plan, at_places(&case.marks, &shares, 0));
        }
        let found = narrowed(topic, narrow, &case);
        let expected = narrowed(topic, narrow, &rest).map(|ranges| at_places(&case.marks, &ranges, (0, 0)));
        topic.same(&case, "ranges", found, expected);
    }
}

/// The running members' items at the places of all members, and another one for each shut member.
fn at_places<T: Copy>(marks: &[u64], items: &[T], shut: T) -> Vec<T> {
    let mut items = items.iter();
    let mut item = |mark: u64| if mark == SHUT { Some(shut) } else { items.next().copied() };
    marks.iter().filter_map(|&mark| item(mark)).collect()
}
