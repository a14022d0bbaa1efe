//! Narrowing one group: the known ranges, enumeration of plans, the specification's wrong turns, laws of large groups.

use crate::calls::Narrow;
use crate::cases::groups::{large, limits_near, limits_of, small, GroupCase};
use crate::check::{Checks, Topic};
use crate::enumerate::{plans, share_lists, values_taken, Range};
use crate::independent::narrow::{taken, Terms};
use crate::independent::{self, MOST_UNITS};
use danivomel::{Limit, Refusal};
use Limit::{Any, AtMost};

/// What a narrowing should leave: the ranges, or a refusal.
type Expected = Result<Vec<Range>, Refusal>;

/// Tries a planner's narrowing.
pub fn run(checks: &mut Checks, who: &str, narrow: Narrow) {
    checks.topic("narrow, known ranges", who, |topic| known(topic, narrow));
    checks.topic("narrow, wrong turns", who, |topic| wrong_turns(topic, narrow));
    checks.topic("narrow, 002's ranges for every total and limit", who, |topic| every_total(topic, narrow));
    checks.topic("narrow, enumeration of plans", who, |topic| enumerated(topic, narrow));
    checks.topic("narrow, edges", who, |topic| edges(topic, narrow));
    checks.topic("narrow, laws of large groups", who, |topic| laws(topic, narrow));
}

/// Compares a planner's narrowing with the independent one on large groups.
pub fn compare(checks: &mut Checks, who: &str, narrow: Narrow) {
    checks.topic("narrow, against the independent planner", who, |topic| {
        for (count, most) in [(3_000, 12), (200, 60), (12, MOST_UNITS)] {
            for _ in 0..count {
                let mut case = large(&mut topic.random, most);
                case.limits = limits_of(&mut topic.random, &case);
                let (answer, after) = narrowed(independent::narrow, &case);
                check(topic, narrow, &case, answer.map(|()| after.ranges()));
            }
        }
    });
}

/// Narrows a copy of a group.
fn narrowed(narrow: Narrow, case: &GroupCase) -> (Result<(), Refusal>, GroupCase) {
    let mut after = case.clone();
    let answer = narrow(&mut after.lows, &mut after.highs, &case.marks, case.total, case.limits);
    (answer, after)
}

/// Narrows, and compares the answer and both lists; on a refusal they are as they were.
fn check(topic: &mut Topic, narrow: Narrow, case: &GroupCase, expected: Expected) {
    let (answer, after) = narrowed(narrow, case);
    let ranges = match &expected {
        Ok(ranges) => ranges.clone(),
        Err(_) => case.ranges(),
    };
    topic.same(case, "answer", answer, expected.map(|_| ()));
    topic.same(case, "ranges after the call", after.ranges(), ranges);
}

/// A refusal with place 0.
fn refused(number: u64) -> Expected {
    Err(Refusal { number, place: 0 })
}

/// The specification's known ranges; 001's example 4 is the one with deviation limit 7 × 4.
fn known(topic: &mut Topic, narrow: Narrow) {
    let first = || GroupCase::of(&[(8, 10), (4, 7), (1, 5), (3, 4)], 20);
    let some = vec![(8, 8), (4, 5), (3, 5), (3, 4)];
    let only = vec![(8, 8), (4, 4), (4, 4), (4, 4)];
    check(topic, narrow, &first().under(AtMost(28), Any), Ok(some.clone()));
    check(topic, narrow, &first().under(Any, AtMost(56)), Ok(some.clone()));
    check(topic, narrow, &first().under(AtMost(28), AtMost(56)), Ok(some));
    check(topic, narrow, &first().under(Any, AtMost(55)), Ok(only.clone()));
    check(topic, narrow, &first().under(AtMost(28), AtMost(55)), Ok(only.clone()));
    check(topic, narrow, &first().under(Any, AtMost(48)), Ok(only.clone()));
    check(topic, narrow, &first().under(AtMost(24), Any), Ok(vec![(8, 8), (4, 5), (3, 5), (3, 4)]));
    check(topic, narrow, &first().under(Any, AtMost(47)), refused(12));
    check(topic, narrow, &first().under(AtMost(23), Any), refused(12));
    check(topic, narrow, &first().under_pairs(AtMost(18)), Ok(vec![(8, 9), (4, 6), (3, 5), (3, 4)]));
    check(topic, narrow, &first().under_pairs(AtMost(17)), Ok(vec![(8, 8), (4, 5), (3, 5), (3, 4)]));
    check(topic, narrow, &first().under_pairs(AtMost(16)), Ok(vec![(8, 8), (4, 5), (3, 5), (3, 4)]));
    check(topic, narrow, &first().under_pairs(AtMost(15)), Ok(only.clone()));
    check(topic, narrow, &first().under_pairs(AtMost(12)), Ok(only));
    check(topic, narrow, &first().under_pairs(AtMost(11)), refused(12));
    let ten = || GroupCase::of(&[(0, 1); 10], 5);
    check(topic, narrow, &ten().under(AtMost(30), Any), refused(12));
    check(topic, narrow, &ten().under(AtMost(50), Any), Ok(vec![(0, 1); 10]));
    check(topic, narrow, &ten().under_pairs(AtMost(24)), refused(12));
    check(topic, narrow, &ten().under_pairs(AtMost(25)), Ok(vec![(0, 1); 10]));
    let three = |total| GroupCase::of(&[(1, 3), (2, 6), (3, 9)], total);
    check(topic, narrow, &three(5), refused(11));
    check(topic, narrow, &three(19), refused(11));
    check(topic, narrow, &three(18), Ok(vec![(3, 3), (6, 6), (9, 9)]));
    let one = GroupCase::of(&[(0, 9)], 4).under(AtMost(0), AtMost(0)).under_pairs(AtMost(0));
    check(topic, narrow, &one, Ok(vec![(4, 4)]));
}

/// Cases that the programs which the specification calls wrong would fail.
fn wrong_turns(topic: &mut Topic, narrow: Narrow) {
    // the fractional least figure: spread 0.5 for total 10, and deviation 0 for the ten units
    let three = || GroupCase::of(&[(1, 3), (2, 6), (3, 9)], 10);
    check(topic, narrow, &three().under(Any, AtMost(1)), refused(12));
    check(topic, narrow, &three().under(Any, AtMost(2)), Ok(vec![(3, 3), (3, 4), (3, 4)]));
    check(topic, narrow, &three().under(AtMost(3), Any), refused(12));
    check(topic, narrow, &three().under(AtMost(4), Any), Ok(vec![(3, 3), (3, 4), (3, 4)]));
    check(topic, narrow, &three().under_pairs(AtMost(1)), refused(12));
    check(topic, narrow, &three().under_pairs(AtMost(2)), Ok(vec![(3, 3), (3, 4), (3, 4)]));
    let ten = || GroupCase::of(&[(0, 1); 10], 5);
    check(topic, narrow, &ten().under(AtMost(49), Any), refused(12));
    check(topic, narrow, &ten().under(Any, AtMost(24)), refused(12));
    // keeping 9 because 9 4 3 4 adds up to 20: it gives at least 32
    let first = || GroupCase::of(&[(8, 10), (4, 7), (1, 5), (3, 4)], 20);
    check(topic, narrow, &first().under(AtMost(31), Any), Ok(vec![(8, 8), (4, 5), (3, 5), (3, 4)]));
    check(topic, narrow, &first().under(AtMost(32), Any), Ok(vec![(8, 9), (4, 6), (2, 5), (3, 4)]));
    // dividing the total by n and rounding: 5 lies in the range of two members alone, and not of the first
    check(topic, narrow, &first().under(AtMost(24), AtMost(48)), Ok(vec![(8, 8), (4, 4), (4, 4), (4, 4)]));
    // one limit alone would keep what the other forbids
    let wide = || GroupCase::of(&[(0, 9), (0, 9), (3, 3)], 9);
    check(topic, narrow, &wide().under(AtMost(12), Any), Ok(vec![(1, 5), (1, 5), (3, 3)]));
    check(topic, narrow, &wide().under(Any, AtMost(6)), Ok(vec![(2, 4), (2, 4), (3, 3)]));
    check(topic, narrow, &wide().under(AtMost(12), AtMost(6)), Ok(vec![(2, 4), (2, 4), (3, 3)]));
    check(topic, narrow, &wide().under(AtMost(6), AtMost(54)), Ok(vec![(2, 4), (2, 4), (3, 3)]));
    check(topic, narrow, &wide().under_pairs(AtMost(8)), Ok(vec![(1, 5), (1, 5), (3, 3)]));
    check(topic, narrow, &wide().under_pairs(AtMost(7)), Ok(vec![(2, 4), (2, 4), (3, 3)]));
    check(topic, narrow, &wide().under(AtMost(12), Any).under_pairs(AtMost(4)), Ok(vec![(2, 4), (2, 4), (3, 3)]));
    check(topic, narrow, &wide().under(AtMost(6), Any).under_pairs(AtMost(8)), Ok(vec![(2, 4), (2, 4), (3, 3)]));
    check(topic, narrow, &wide().under(Any, AtMost(6)).under_pairs(AtMost(8)), Ok(vec![(2, 4), (2, 4), (3, 3)]));
    check(topic, narrow, &wide().under(AtMost(12), AtMost(24)).under_pairs(AtMost(0)), Ok(vec![(3, 3); 3]));
}

/// What enumeration says of a narrowing. The values taken must form a range.
fn by_enumeration(topic: &mut Topic, case: &GroupCase) -> Expected {
    let ranges = case.ranges();
    if share_lists(&ranges, case.total).is_empty() {
        return refused(11);
    }
    let plans = plans(&ranges, &case.marks, case.total, case.limits);
    if plans.is_empty() {
        return refused(12);
    }
    let mut left = vec![];
    for member in 0..ranges.len() {
        let values = values_taken(&plans, member);
        let (low, high) = (values[0], values[values.len() - 1]);
        topic.same(case, "values taken form a range", values, (low..=high).collect());
        left.push((low, high));
    }
    Ok(left)
}

/// 002's example for every total, under every limit up to the greatest figures.
fn every_total(topic: &mut Topic, narrow: Narrow) {
    for total in 5..=19 {
        for most in 0..=60 {
            let few = AtMost(15 - most / 4);
            for (deviation, spread, pairs) in [
                (AtMost(most), Any, Any),
                (Any, AtMost(most), Any),
                (Any, Any, AtMost(most)),
                (AtMost(most), AtMost(60 - most), Any),
                (AtMost(most), Any, few),
                (Any, AtMost(most), few),
                (AtMost(most), AtMost(60 - most), AtMost(most % 16)),
            ] {
                let case = GroupCase::of(&[(1, 3), (2, 6), (3, 9)], total).under(deviation, spread).under_pairs(pairs);
                let expected = by_enumeration(topic, &case);
                check(topic, narrow, &case, expected);
            }
        }
    }
}

/// Small groups under no limit, one, two or all three.
fn enumerated(topic: &mut Topic, narrow: Narrow) {
    for _ in 0..12_000 {
        let mut case = small(&mut topic.random);
        let lists = share_lists(&case.ranges(), case.total);
        case.limits = limits_near(&mut topic.random, &lists, &case);
        let expected = by_enumeration(topic, &case);
        check(topic, narrow, &case, expected);
    }
}

/// The edges of every range, and numbers that would wrap.
fn edges(topic: &mut Topic, narrow: Narrow) {
    let top = 1_000_000;
    let full = || GroupCase::of(&[(0, top); 256], 128 * top);
    check(topic, narrow, &full(), Ok(vec![(0, top); 256]));
    check(
        topic,
        narrow,
        &full().under(AtMost(100_000_000_000), AtMost(100_000_000_000_000_000)),
        Ok(vec![(0, top); 256]),
    );
    check(topic, narrow, &full().under_pairs(AtMost(100_000_000_000)), Ok(vec![(0, top); 256]));
    check(topic, narrow, &full().under_pairs(AtMost(0)), Ok(vec![(top / 2, top / 2); 256]));
    check(topic, narrow, &full().under_pairs(AtMost(100_000_000_001)), refused(4));
    check(topic, narrow, &full().under_pairs(AtMost(u64::MAX)), refused(4));
    check(topic, narrow, &full().under(AtMost(0), Any), Ok(vec![(top / 2, top / 2); 256]));
    check(topic, narrow, &full().under(Any, AtMost(0)), Ok(vec![(top / 2, top / 2); 256]));
    check(topic, narrow, &full().under(AtMost(100_000_000_001), Any), refused(4));
    check(topic, narrow, &full().under(Any, AtMost(100_000_000_000_000_001)), refused(4));
    check(topic, narrow, &full().under(AtMost(u64::MAX), AtMost(u64::MAX)), refused(4));
    check(topic, narrow, &GroupCase::of(&[(0, top); 256], 256 * top), Ok(vec![(top, top); 256]));
    check(topic, narrow, &GroupCase::of(&[(0, top); 256], 256 * top + 1), refused(4));
    check(topic, narrow, &GroupCase::of(&[(0, top); 256], 0), Ok(vec![(0, 0); 256]));
    check(topic, narrow, &GroupCase::of(&[(0, top); 257], 0), refused(1));
    check(topic, narrow, &GroupCase::of(&[], 0), refused(1));
    check(topic, narrow, &GroupCase::of(&[(0, top), (0, top)], 2 * top - 1), Ok(vec![(top - 1, top), (top - 1, top)]));
    check(topic, narrow, &GroupCase::of(&[(0, top), (0, top)], 1), Ok(vec![(0, 1), (0, 1)]));
    // half of the members at either end, which is the greatest figure of all
    let mut halves = vec![(0, 0); 256];
    halves[128..].fill((top, top));
    let ends = |pairs| GroupCase::of(&halves, 128 * top).under_pairs(AtMost(pairs));
    check(topic, narrow, &ends(128 * 128 * top), Ok(halves.clone()));
    check(topic, narrow, &ends(128 * 128 * top - 1), refused(12));
    let unit = |place| Err(Refusal { number: 4, place });
    check(topic, narrow, &GroupCase::of(&[(u64::MAX, u64::MAX); 2], u64::MAX), unit(1));
    check(topic, narrow, &GroupCase::of(&[(0, top), (0, top + 1)], 0), unit(2));
}

/// Large groups: each new end is taken and its outer neighbour is not, a second narrowing changes nothing, and the
/// members' order does not matter.
fn laws(topic: &mut Topic, narrow: Narrow) {
    for (count, most) in [(600, 10), (60, 40), (4, MOST_UNITS)] {
        for _ in 0..count {
            let mut case = large(&mut topic.random, most);
            case.limits = limits_of(&mut topic.random, &case);
            let (answer, after) = narrowed(narrow, &case);
            if answer.is_err() {
                topic.same(&case, "ranges after a refusal", &after, &case);
                continue;
            }
            ends_are_taken(topic, &case, &after);
            check(topic, narrow, &after, Ok(after.ranges()));
            let mut turned = case.clone();
            turned.lows.reverse();
            turned.highs.reverse();
            turned.marks.reverse();
            let ranges = after.ranges().into_iter().rev().collect();
            check(topic, narrow, &turned, Ok(ranges));
        }
    }
}

/// Each end of a narrowed range is taken by some plan of the group as it was, and no value next to it outside is.
fn ends_are_taken(topic: &mut Topic, case: &GroupCase, after: &GroupCase) {
    let (mut lows, mut highs) = (case.lows.clone(), case.highs.clone());
    let terms = Terms { marks: &case.marks, total: case.total, limits: case.limits };
    let mut is_taken = |member: usize, value: u64| taken(&mut lows, &mut highs, terms, member, value);
    for (member, (low, high)) in after.ranges().into_iter().enumerate() {
        topic.holds(case, "low taken", case.lows[member] <= low && is_taken(member, low));
        topic.holds(case, "high taken", high <= case.highs[member] && is_taken(member, high));
        topic.holds(case, "below low", low == case.lows[member] || !is_taken(member, low - 1));
        topic.holds(case, "above high", high == case.highs[member] || !is_taken(member, high + 1));
    }
}
