//! Random sound jobs, half of them with shut units, and the printer of job texts.

use super::groups::marks;
use crate::enumerate::{deviation, of_members, pairs, running, spread};
use crate::independent::reader::{Group, Job};
use crate::independent::{GREATEST_DEVIATION, GREATEST_PAIRS, GREATEST_SHARE, GREATEST_SPREAD, SHUT};
use crate::random::Random;
use danivomel::{Limit, Limits};
use std::fmt::Write;

/// How large a random job is.
#[derive(Clone, Copy, Debug)]
pub struct Size {
    pub units: u64,
    pub groups: u64,
    pub width: u64,
    pub greatest: u64,
}

/// Jobs whose tables can all be enumerated.
pub const TINY: Size = Size { units: 4, groups: 4, width: 3, greatest: 6 };
/// Jobs of a few groups.
pub const MIDDLE: Size = Size { units: 20, groups: 8, width: 40, greatest: 200 };
/// Jobs with large numbers.
pub const WIDE: Size = Size { units: 60, groups: 12, width: 2_000, greatest: GREATEST_SHARE };

/// The text of a job.
pub fn print_job(job: &Job) -> Vec<u8> {
    let mut text = String::new();
    for ((low, high), &mark) in job.lows.iter().zip(&job.highs).zip(&job.marks) {
        text.push_str(&if mark == SHUT { "(shut)\n".to_string() } else { format!("(unit {low} {high})\n") });
    }
    for group in &job.groups {
        let [dev, spread, pairs] = [group.limits.deviation, group.limits.spread, group.limits.pairs].map(limit_word);
        let pairs = if group.says_pairs { format!("(pairs {pairs}) ") } else { String::new() };
        let of: Vec<String> = group.members.iter().map(|unit| (unit + 1).to_string()).collect();
        let of = of.join(" ");
        let _ = writeln!(text, "(group {} (dev {dev}) (spread {spread}) {pairs}(of {of}))", group.total);
    }
    text.into_bytes()
}

/// A limit as a job text has it.
fn limit_word(limit: Limit) -> String {
    match limit {
        Limit::Any => "any".to_string(),
        Limit::AtMost(most) => most.to_string(),
    }
}

/// A sound job. Most of its groups are drawn around one choice of shares, so that many jobs settle.
pub fn sound(random: &mut Random, size: Size) -> Job {
    let mut job = Job::default();
    let mut choice = vec![];
    let units = random.between(1, size.units) as usize;
    job.marks = marks(random, units);
    for &mark in &job.marks {
        let (low, high) = if mark == SHUT { (0, 0) } else { range(random, size) };
        choice.push(random.between(low, high));
        job.lows.push(low);
        job.highs.push(high);
    }
    for _ in 0..random.between(0, size.groups) {
        job.groups.push(group_around(random, &choice, &job.marks));
    }
    job
}

/// The range of a running unit.
fn range(random: &mut Random, size: Size) -> (u64, u64) {
    let low = random.between(0, size.greatest);
    (low, (low + random.between(0, size.width)).min(GREATEST_SHARE))
}

/// A group whose total and limits fit a choice of shares, or nearly.
fn group_around(random: &mut Random, choice: &[u64], marks: &[u64]) -> Group {
    let mut members: Vec<usize> = (0..choice.len()).collect();
    random.shuffle(&mut members);
    members.truncate(random.between(1, choice.len() as u64) as usize);
    let mut group = Group { total: 0, limits: Limits::ANY, says_pairs: random.once_in(2), members };
    let shares = running(&of_members(&group, choice), &of_members(&group, marks));
    let exact: u64 = shares.iter().sum();
    group.total = if random.once_in(6) { exact + 1 } else { exact };
    group.limits = Limits {
        deviation: limit_over(random, deviation(&shares, exact).0, GREATEST_DEVIATION),
        spread: limit_over(random, spread(&shares, exact).0, GREATEST_SPREAD),
        pairs: if group.says_pairs { pairs_over(random, pairs(&shares).0) } else { Limit::Any },
    };
    group
}

/// A pairs limit: now and then 0 or the greatest there is, else as the other limits are.
fn pairs_over(random: &mut Random, figure: u64) -> Limit {
    match random.between(0, 31) {
        0 => Limit::AtMost(0),
        1 => Limit::AtMost(GREATEST_PAIRS),
        _ => limit_over(random, figure, GREATEST_PAIRS),
    }
}

/// Any, or a limit a little above a figure, now and then below it.
fn limit_over(random: &mut Random, figure: u64, greatest: u64) -> Limit {
    let most = match random.between(0, 9) {
        0..=4 => return Limit::Any,
        5 => figure.saturating_sub(random.between(1, 3)),
        6 | 7 => figure,
        _ => figure + random.between(0, figure / 4 + 4),
    };
    Limit::AtMost(most.min(greatest))
}

/// A table other than the unit lines: each range but those of shut units moved, widened or shrunk a little.
pub fn other_table(random: &mut Random, job: &Job) -> (Vec<u64>, Vec<u64>) {
    let mut lows = job.lows.clone();
    let mut highs = job.highs.clone();
    for unit in (0..lows.len()).filter(|&unit| job.marks[unit] != SHUT) {
        let moved = lows[unit].saturating_sub(random.between(0, 2)) + random.between(0, 2);
        lows[unit] = moved.min(GREATEST_SHARE);
        highs[unit] = (highs[unit] + random.between(0, 1)).clamp(lows[unit], GREATEST_SHARE);
    }
    (lows, highs)
}
