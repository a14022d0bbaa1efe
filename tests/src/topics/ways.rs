//! Every way to hand out the copies left over: all have the figures and the totals above t of the levelled shares, and
//! narrowing keeps what each of them gives.

use super::headroom::{answer_of, levelled, Rest};
use crate::calls::{Level, Narrow};
use crate::cases::groups::{growing, limits_near, small, GroupCase};
use crate::check::{Checks, Topic};
use crate::enumerate::{above, running, share_lists, Range};
use crate::independent::level::clamp;
use danivomel::Levelled;

/// Tries a planner's levelling and narrowing of one group.
pub fn run(checks: &mut Checks, who: &str, level: Level, narrow: Narrow) {
    checks.topic("headroom, every way to hand out", who, |topic| every_way(topic, level, narrow));
}

/// Every way to hand the copies left over out, one each to growing members.
fn ways(ranges: &[Range], v: u64, rest: &Rest) -> Vec<Vec<u64>> {
    let chosen = (0u32..1 << rest.growing.len()).filter(|set| u64::from(set.count_ones()) == rest.left);
    let shares = |set: u32| {
        let mut shares: Vec<u64> = ranges.iter().map(|&(low, high)| clamp(low, high, v)).collect();
        (0..rest.growing.len()).filter(|bit| set >> bit & 1 == 1).for_each(|bit| shares[rest.growing[bit]] += 1);
        shares
    };
    chosen.map(shares).collect()
}

/// Small groups: every way has the same figures and totals above t, which are the least of all share lists, and these
/// ways alone have the least spread. So narrowing keeps what each of them gives.
fn every_way(topic: &mut Topic, level: Level, narrow: Narrow) {
    for round in 0..4_000 {
        let mut case = if round % 2 == 0 { small(&mut topic.random) } else { growing(&mut topic.random, 6, 2) };
        let lists = share_lists(&case.ranges(), case.total);
        let (answer, plan) = match levelled(level, &case) {
            Some(found) => found,
            None => continue,
        };
        let rest = Rest::of(&case.ranges(), case.total, answer.level);
        let mut ways = ways(&case.ranges(), answer.level, &rest);
        topic.holds(&case, "one of the ways", ways.contains(&plan));
        all_least(topic, &case, answer, &lists, &mut ways);
        case.limits = limits_near(&mut topic.random, &lists, &case);
        kept(topic, &case, narrow, answer.level, &rest);
    }
}

/// All ways have the figures answered, which no share list has less of, and so has each total above t; the ways are
/// all lists with the least spread.
fn all_least(topic: &mut Topic, case: &GroupCase, answer: Levelled, lists: &[Vec<u64>], ways: &mut Vec<Vec<u64>>) {
    let figures = |list: &Vec<u64>| answer_of(answer.level, list, &case.marks, case.total);
    let all: Vec<Levelled> = lists.iter().map(figures).collect();
    topic.holds(case, "the least deviation", all.iter().all(|other| other.deviation >= answer.deviation));
    topic.holds(case, "the least spread", all.iter().all(|other| other.spread >= answer.spread));
    topic.holds(case, "the least pairs", all.iter().all(|other| other.pairs >= answer.pairs));
    topic.holds(case, "figures of every way", ways.iter().all(|way| figures(way) == answer));
    let mut least: Vec<Vec<u64>> = lists.iter().filter(|list| figures(list).spread == answer.spread).cloned().collect();
    ways.sort_unstable();
    least.sort_unstable();
    topic.same(case, "the lists with the least spread", &*ways, &least);
    let lowest = running(&case.lows, &case.marks).into_iter().min().unwrap_or(0);
    for t in lowest..lowest + 18 {
        let above = |list: &Vec<u64>| above(&running(list, &case.marks), t);
        let least = lists.iter().map(above).min();
        topic.holds(case, "the least total above t", ways.iter().all(|way| Some(above(way)) == least));
    }
}

/// Where a group has a plan, narrowing keeps the level for every growing member, and where copies are left over one
/// more too.
fn kept(topic: &mut Topic, case: &GroupCase, narrow: Narrow, v: u64, rest: &Rest) {
    let mut after = case.clone();
    if narrow(&mut after.lows, &mut after.highs, &case.marks, case.total, case.limits).is_ok() {
        for &member in &rest.growing {
            let holds = |value: u64| after.lows[member] <= value && value <= after.highs[member];
            topic.holds(&(case, member), "the level is kept", holds(v));
            topic.holds(&(case, member), "one more is kept", rest.left == 0 || holds(v + 1));
        }
    }
}
