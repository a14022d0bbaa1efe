//! Copies left over go to the members with the most headroom: 02's sentence asked of the shares, known shares, and that
//! nothing but shares has moved by it.

use super::read::Shown;
use super::shut::reported;
use super::{fillers, ways};
use crate::calls::{table, Level, Narrow, OnTexts};
use crate::cases::groups::{growing, large, small, GroupCase};
use crate::cases::jobs::{other_table, print_job, sound, MIDDLE, TINY, WIDE};
use crate::check::{Checks, Topic};
use crate::enumerate::{deviation, of_members, pairs, running, spread, total_at, Range};
use crate::independent::level::{clamp, level_of};
use crate::independent::reader::Job;
use crate::independent::{self, GREATEST_SHARE, MOST_UNITS, RUNNING, SCRATCH_PER_UNIT, SHUT};
use crate::random::Random;
use danivomel::Levelled;
use std::fmt::Write;

/// Tries a planner's shares of one group.
pub fn run_lists(checks: &mut Checks, who: &str, level: Level, narrow: Narrow) {
    checks.topic("headroom, 02's sentence", who, |topic| sentence(topic, level));
    checks.topic("headroom, level and figures as they were", who, |topic| figures_before(topic, level));
    checks.topic("headroom, edges", who, |topic| edges(topic, level));
    ways::run(checks, who, level, narrow);
}

/// Tries a planner's reports.
pub fn run_texts(checks: &mut Checks, who: &str, planner: OnTexts) {
    checks.topic("headroom, reports as they were", who, |topic| reports_before(topic, planner));
}

/// Compares a planner's levelling with the independent one where copies are left over.
pub fn compare(checks: &mut Checks, who: &str, level: Level) {
    checks.topic("headroom, against the independent planner", who, |topic| {
        for _ in 0..20_000 {
            let case = about_a_level(&mut topic.random);
            topic.same(&case, "answer and shares", levelled(level, &case), levelled(independent::level, &case));
        }
    });
}

/// A group of up to 256 members, most of which grow at its level.
fn about_a_level(random: &mut Random) -> GroupCase {
    let most = random.one_of(&[3, 8, 40, MOST_UNITS]);
    let reach = random.one_of(&[1, 2, 10, 1_000, GREATEST_SHARE]);
    growing(random, most, reach)
}

/// A planner's answer for a group that has shares, and the shares; nothing where it refuses.
pub fn levelled(level: Level, case: &GroupCase) -> Option<(Levelled, Vec<u64>)> {
    let mut plan = fillers(case.lows.len());
    level(&case.lows, &case.highs, &case.marks, case.total, &mut plan).ok().map(|answer| (answer, plan))
}

/// What is known of a group at its level: the members that grow there, and the copies left over.
pub struct Rest {
    pub growing: Vec<usize>,
    pub left: u64,
}

impl Rest {
    /// What a group has at a level that is no higher than its own.
    pub fn of(ranges: &[Range], total: u64, v: u64) -> Rest {
        let grows = |&member: &usize| ranges[member].0 <= v && v < ranges[member].1;
        Rest { growing: (0..ranges.len()).filter(grows).collect(), left: total.saturating_sub(total_at(ranges, v)) }
    }
}

/// Groups about a level: the answer is right by 02's own words.
fn sentence(topic: &mut Topic, level: Level) {
    let mut decided = 0;
    for _ in 0..10_000 {
        let case = about_a_level(&mut topic.random);
        match levelled(level, &case) {
            Some((answer, plan)) => decided += u64::from(by_sentence(topic, &case, answer.level, &plan)),
            None => topic.holds(&case, "has shares", false),
        }
    }
    topic.holds(&decided, "in many groups the first members are not those with the most headroom", decided > 1_000);
}

/// The copies left over go one each to growing members, with the most high − v first and among equals to the earlier.
/// Says whether the first growing members would have been others.
fn by_sentence(topic: &mut Topic, case: &GroupCase, v: u64, plan: &[u64]) -> bool {
    let ranges = case.ranges();
    let is_level = total_at(&ranges, v) <= case.total && (v == GREATEST_SHARE || total_at(&ranges, v + 1) > case.total);
    topic.holds(case, "the level", is_level);
    topic.same(case, "total", plan.iter().sum::<u64>(), case.total);
    let rest = Rest::of(&ranges, case.total, v);
    let copies = |member: usize| i128::from(plan[member]) - i128::from(v.min(ranges[member].1).max(ranges[member].0));
    let (mut served, mut unserved) = (vec![], vec![]);
    for member in 0..ranges.len() {
        match copies(member) {
            1 if rest.growing.contains(&member) => served.push(member),
            0 if rest.growing.contains(&member) => unserved.push(member),
            more => topic.same(&(case, member), "copies of a member that does not grow, or more than one", more, 0),
        }
    }
    let headroom = |member: usize| ranges[member].1 - v;
    let ahead = |j: usize, i: usize| headroom(j) > headroom(i) || (headroom(j) == headroom(i) && j < i);
    let in_turn = served.iter().all(|&j| unserved.iter().all(|&i| ahead(j, i)));
    topic.holds(case, "most headroom first, among equals the earlier", in_turn);
    served != rest.growing[..served.len()]
}

/// The shares by the rule of before: at the level, the copies left over go to the first growing members.
fn shares_before(ranges: &[Range], total: u64, v: u64) -> Vec<u64> {
    let rest = Rest::of(ranges, total, v);
    let mut shares: Vec<u64> = ranges.iter().map(|&(low, high)| clamp(low, high, v)).collect();
    rest.growing.iter().take(rest.left as usize).for_each(|&member| shares[member] += 1);
    shares
}

/// What levelling answers beside these shares.
pub fn answer_of(v: u64, shares: &[u64], marks: &[u64], total: u64) -> Levelled {
    let shares = running(shares, marks);
    Levelled { level: v, deviation: deviation(&shares, total), spread: spread(&shares, total), pairs: pairs(&shares) }
}

/// Level and figures are those of the shares by the rule of before, and the shares are the same but for their order.
fn figures_before(topic: &mut Topic, level: Level) {
    for round in 0..6_000 {
        let case = match round % 3 {
            0 => small(&mut topic.random),
            1 => large(&mut topic.random, MOST_UNITS),
            _ => about_a_level(&mut topic.random),
        };
        if let Some((answer, mut plan)) = levelled(level, &case) {
            let v = level_of(&case.lows, &case.highs, case.total);
            let mut before = shares_before(&case.ranges(), case.total, v);
            topic.same(&case, "level and figures", answer, answer_of(v, &before, &case.marks, case.total));
            plan.sort_unstable();
            before.sort_unstable();
            topic.same(&case, "shares in rising order", plan, before);
        }
    }
}

/// The report of before on a settled table.
fn report_before(job: &Job, passes: u64, settled: &[danivomel::Range]) -> String {
    let ranges: Vec<Range> = settled.iter().map(|range| (range.low, range.high)).collect();
    let mut lines = format!("(settled {passes})\n");
    for (unit, (low, high)) in ranges.iter().enumerate() {
        let _ = writeln!(lines, "(unit {} {low} {high})", unit + 1);
    }
    for (index, group) in job.groups.iter().enumerate() {
        let (members, marks) = (of_members(group, &ranges), of_members(group, &job.marks));
        let (lows, highs): (Vec<u64>, Vec<u64>) = members.iter().copied().unzip();
        let v = level_of(&lows, &highs, group.total);
        let shares = shares_before(&members, group.total, v);
        let Levelled { deviation, spread, pairs, .. } = answer_of(v, &shares, &marks, group.total);
        let plan: Vec<String> = shares.iter().map(u64::to_string).collect();
        let (index, plan) = (index + 1, plan.join(" "));
        let _ = writeln!(lines, "(group {index} {v} {} {} {} (plan {plan}))", deviation.0, spread.0, pairs.0);
    }
    lines
}

/// A report's lines with the numbers of each plan in rising order.
fn in_rising_order(report: &str) -> String {
    let line = |line: &str| match line.split_once("(plan ") {
        None => format!("{line}\n"),
        Some((start, plan)) => {
            let mut shares: Vec<u64> =
                plan.trim_end_matches(')').split(' ').filter_map(|word| word.parse().ok()).collect();
            shares.sort_unstable();
            format!("{start}(plan {shares:?}\n")
        }
    };
    report.lines().map(line).collect()
}

/// Random jobs: answer and table are those of settling, and the report is that of before but for the order in its
/// plans.
fn reports_before(topic: &mut Topic, planner: OnTexts) {
    let mut moved = 0;
    for round in 0..3_000 {
        let mut job = sound(&mut topic.random, if round % 20 == 0 { WIDE } else { [TINY, MIDDLE][round % 2] });
        (job.lows, job.highs) = other_table(&mut topic.random, &job);
        let text = print_job(&job);
        let opening = table(&job.lows, &job.highs);
        let mut settled = opening.clone();
        let expected = independent::settle(&text, &mut settled, &mut fillers(SCRATCH_PER_UNIT * opening.len()));
        let (answer, after, report) = reported(planner, &text, &opening);
        topic.same(&Shown(&text), "passes or refusal", answer.map(|reported| reported.passes), expected);
        topic.same(&Shown(&text), "table", after, settled.clone());
        let before = expected.map_or(String::new(), |passes| report_before(&job, passes, &settled));
        moved += u64::from(report != before);
        topic.same(&Shown(&text), "report but for its plans", in_rising_order(&report), in_rising_order(&before));
    }
    topic.holds(&moved, "the plans of many jobs have moved", moved > 100);
}

/// A group with its level and its shares.
type Known<'a> = (&'a [Range], u64, &'a [u64]);

/// Where the copies left over go is decided by one copy of headroom, by the place alone, or not at all.
const KNOWN: [Known; 22] = [
    (&[(1, 3), (2, 6), (3, 9)], 3, &[3, 3, 4]),
    // no copy left over
    (&[(0, 5), (0, 9)], 3, &[3, 3]),
    (&[(1, 3), (2, 6), (3, 9)], 3, &[3, 3, 3]),
    // one member grows
    (&[(0, 2), (0, 9)], 5, &[2, 5]),
    (&[(4, 8), (0, 2), (7, 9)], 5, &[5, 2, 7]),
    // equal highs
    (&[(0, 9), (0, 9), (0, 9), (0, 9), (0, 9)], 2, &[3, 3, 3, 2, 2]),
    (&[(2, 9), (0, 9), (1, 9)], 2, &[3, 3, 2]),
    // highs that differ by one
    (&[(0, 9), (0, 10)], 2, &[2, 3]),
    (&[(0, 10), (0, 9)], 2, &[3, 2]),
    (&[(0, 9), (0, 10), (0, 9), (0, 10)], 2, &[2, 3, 2, 2]),
    (&[(0, 9), (0, 10), (0, 9), (0, 10)], 2, &[2, 3, 2, 3]),
    (&[(0, 9), (0, 10), (0, 9), (0, 10)], 2, &[3, 3, 2, 3]),
    // the highest high is of a member that does not grow: its low is above the level
    (&[(5, 9), (0, 4), (0, 6)], 1, &[5, 1, 2]),
    (&[(2, 9), (0, 4), (0, 6)], 1, &[2, 1, 2]),
    // the level is a member's high
    (&[(0, 3), (0, 4), (0, 5)], 3, &[3, 3, 4]),
    // level 0
    (&[(0, 1), (0, 2), (0, 3)], 0, &[0, 1, 1]),
    (&[(0, 1), (0, 1), (0, 1)], 0, &[1, 0, 0]),
    (&[(0, 0), (0, 1), (0, 1_000_000)], 0, &[0, 0, 1]),
    // the greatest levels
    (&[(0, 4), (2, 3)], 1_000_000, &[4, 3]),
    (&[(0, 1_000_000), (3, 1_000_000)], 1_000_000, &[1_000_000, 1_000_000]),
    (&[(0, 999_999), (0, 1_000_000), (5, 1_000_000)], 999_999, &[999_999, 1_000_000, 999_999]),
    (&[(0, 999_999), (0, 1_000_000), (5, 1_000_000)], 999_998, &[999_998, 999_999, 999_999]),
];

/// Known shares, alone and with shut members between; and 256 members that all grow, half of which get a copy.
fn edges(topic: &mut Topic, level: Level) {
    let mut check = |case: GroupCase, v: u64, shares: &[u64]| {
        let expected = (answer_of(v, shares, &case.marks, case.total), shares.to_vec());
        topic.same(&case, "answer and shares", levelled(level, &case), Some(expected));
    };
    for (ranges, v, shares) in KNOWN {
        let total = shares.iter().sum();
        check(GroupCase::of(ranges, total), v, shares);
        let marks = [SHUT, RUNNING].repeat(ranges.len());
        check(GroupCase::of(&between_shut(ranges, (0, 0)), total).marked(&marks), v, &between_shut(shares, 0));
    }
    let highs: [fn(u64) -> u64; 3] = [|_| 700, |member| 1_000 - member, |member| 700 + member];
    for (high, first) in highs.into_iter().zip([0, 0, 128]) {
        let ranges: Vec<Range> = (0..256).map(|member| (member, high(member))).collect();
        let mut shares = [500; MOST_UNITS];
        shares[first..first + 128].fill(501);
        check(GroupCase::of(&ranges, 256 * 500 + 128), 500, &shares);
    }
}

/// A list with an item for a shut member ahead of each item.
fn between_shut<T: Copy>(list: &[T], shut: T) -> Vec<T> {
    list.iter().flat_map(|&item| [shut, item]).collect()
}
