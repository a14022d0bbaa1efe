//! The groups, jobs and texts of the benchmark, drawn from one seed.

use danivomel::{Limit, Limits};
use danivomel_tests::cases::groups::GroupCase;
use danivomel_tests::cases::jobs::print_job;
use danivomel_tests::independent::level::{clamp, figures};
use danivomel_tests::independent::reader::{Group, Job};
use danivomel_tests::independent::{
    self, GREATEST_DEVIATION, GREATEST_PAIRS, GREATEST_SHARE, GREATEST_SPREAD, MOST_UNITS, RUNNING, SHUT,
};
use danivomel_tests::random::Random;

/// The seed of everything that is drawn.
pub const SEED: u64 = 20_260_101;
/// The greatest share where Gecode takes part: its variables end at 2,147,483,646, so that no square may pass that.
pub const COMMON: u64 = 40_000;
/// The numbers of members that groups are timed with.
pub const SIZES: [usize; 6] = [2, 4, 8, 16, 64, 256];

/// How far the limits of a group are from its least figures. "Ordinary" shares are the middles of the ranges.
#[derive(Clone, Copy, Debug, PartialEq, Eq)]
pub enum Tightness {
    /// Twice the figures of ordinary shares.
    Loose,
    /// The least figures and so much more that one member may move by about a quarter of an ordinary distance from the
    /// mean: 1 / 2n of the way to the figures of ordinary shares.
    Tight,
    /// So many hundredths of the least figures.
    Below(u64),
}

impl Tightness {
    /// The limit for a least and an ordinary figure of n members.
    fn limit(self, n: usize, least: u64, ordinary: u64, greatest: u64) -> Limit {
        let most = match self {
            Tightness::Loose => 2 * ordinary,
            Tightness::Tight => least + (ordinary - least) / (2 * n as u64),
            Tightness::Below(hundredths) => least * hundredths / 100,
        };
        Limit::AtMost(most.min(greatest))
    }

    /// Limits for a group's shares, that of the pairs by another tightness.
    fn limits(self, pairs: Tightness, lows: &[u64], highs: &[u64], ordinary: &[u64]) -> Limits {
        let total = ordinary.iter().sum();
        let (mut plan, marks) = (vec![0; lows.len()], vec![RUNNING; lows.len()]);
        let least =
            independent::level(lows, highs, &marks, total, &mut plan).expect("ordinary shares are in the ranges");
        let (deviation, spread, all_pairs) = figures(ordinary, &marks, total);
        Limits {
            deviation: self.limit(lows.len(), least.deviation.0, deviation.0, GREATEST_DEVIATION),
            spread: self.limit(lows.len(), least.spread.0, spread.0, GREATEST_SPREAD),
            pairs: pairs.limit(lows.len(), least.pairs.0, all_pairs.0, GREATEST_PAIRS),
        }
    }
}

/// A group of ranges between two random shares each, with a total that is a multiple of n, so that Gecode can take its
/// leanest form, and without a pairs limit.
pub fn group(random: &mut Random, n: usize, greatest: u64, tightness: Tightness) -> GroupCase {
    paired_group(random, n, greatest, tightness, tightness).under_pairs(Limit::Any)
}

/// The same group with a pairs limit.
pub fn paired_group(random: &mut Random, n: usize, greatest: u64, tightness: Tightness, pairs: Tightness) -> GroupCase {
    let (mut lows, mut highs, mut ordinary) = (vec![], vec![], vec![]);
    for _ in 0..n {
        let (first, second) = (random.between(0, greatest), random.between(0, greatest));
        lows.push(first.min(second));
        highs.push(first.max(second));
        ordinary.push((first + second) / 2);
    }
    let mut left = ordinary.iter().sum::<u64>() % n as u64;
    for (share, low) in ordinary.iter_mut().zip(&lows) {
        let less = left.min(*share - low);
        *share -= less;
        left -= less;
    }
    assert_eq!(left, 0, "the ranges are wide enough for a total that n divides");
    let limits = tightness.limits(pairs, &lows, &highs, &ordinary);
    GroupCase { lows, highs, marks: vec![RUNNING; n], total: ordinary.iter().sum(), limits }
}

/// Some groups of one size: fewer where they are large.
pub fn groups_of(n: usize, greatest: u64, tightness: Tightness) -> Vec<GroupCase> {
    let mut random = Random::new(SEED + n as u64);
    (0..count_of(n)).map(|_| group(&mut random, n, greatest, tightness)).collect()
}

/// The same groups with a pairs limit.
pub fn paired_groups_of(n: usize, greatest: u64, tightness: Tightness, pairs: Tightness) -> Vec<GroupCase> {
    let mut random = Random::new(SEED + n as u64);
    (0..count_of(n)).map(|_| paired_group(&mut random, n, greatest, tightness, pairs)).collect()
}

/// How many groups of a size are timed.
fn count_of(n: usize) -> usize {
    (256 / n).clamp(2, 16)
}

/// What the highs of a group are like.
#[derive(Clone, Copy, Debug, PartialEq, Eq)]
pub enum Highs {
    Different,
    Equal,
}

/// Some groups of one size all of whose members grow at the level, with copies left over there for half of them.
pub fn growing_groups(n: usize, highs: Highs) -> Vec<GroupCase> {
    let mut random = Random::new(SEED + 40_000 + n as u64);
    (0..count_of(n)).map(|_| growing_group(&mut random, n, highs)).collect()
}

/// One such group: its level lies in the middle of the shares, its lows at most there and its highs above, in random order.
fn growing_group(random: &mut Random, n: usize, highs: Highs) -> GroupCase {
    let level = GREATEST_SHARE / 2;
    let step = level / n as u64;
    let mut ranges = vec![];
    for member in 0..n as u64 {
        let high = match highs {
            Highs::Different => level + member * step + random.between(1, step),
            Highs::Equal => level + level / 2,
        };
        ranges.push((random.between(0, level), high));
    }
    random.shuffle(&mut ranges);
    GroupCase::of(&ranges, n as u64 * level + n as u64 / 2)
}

/// Such groups with a shut member between each two running ones and the next two: a third of n members is shut.
pub fn shut_groups(n: usize, greatest: u64, tightness: Tightness) -> Vec<GroupCase> {
    let mut groups = groups_of(n - n / 3, greatest, tightness);
    for case in &mut groups {
        case.lows = spaced(&case.lows, |_| 0);
        case.highs = spaced(&case.highs, |_| 0);
        case.marks = spaced(&case.marks, |_| SHUT);
    }
    groups
}

/// A list with one more item between each two and the next two, which is told by how many of them come before it.
fn spaced<T: Copy>(list: &[T], more: impl Fn(usize) -> T) -> Vec<T> {
    let mut all = vec![];
    for (index, two) in list.chunks(2).enumerate() {
        if index > 0 {
            all.push(more(index - 1));
        }
        all.extend_from_slice(two);
    }
    all
}

/// A job of so many groups of n members, over half as many units as there are memberships, at most 256.
pub fn job(groups: usize, n: usize) -> Job {
    job_over(groups, n, MOST_UNITS)
}

/// A job of so many groups of n members a third of which is shut, and the same without the shut units.
pub fn shut_job(groups: usize, n: usize) -> (Job, Job) {
    let rest = job_over(groups, n - n / 3, MOST_UNITS - MOST_UNITS / 3);
    let shut_unit = |index: usize| 3 * index + 2;
    let mut job = Job {
        lows: spaced(&rest.lows, |_| 0),
        highs: spaced(&rest.highs, |_| 0),
        marks: spaced(&rest.marks, |_| SHUT),
        groups: rest.groups.clone(),
    };
    for group in &mut job.groups {
        let members: Vec<usize> = group.members.iter().map(|unit| unit + unit / 2).collect();
        group.members = spaced(&members, shut_unit);
    }
    (job, rest)
}

/// A job over so many units at most. All groups suit one choice of nearly even shares, so that it settles, and their
/// limits are near that choice, so that ranges move.
fn job_over(groups: usize, n: usize, most: usize) -> Job {
    let mut random = Random::new(SEED + (1_000 * groups + n) as u64);
    let units = (groups * n / 2).clamp(n, most);
    let (middle, apart) = (COMMON / 2, COMMON / (2 * n as u64));
    let mut job = Job { marks: vec![RUNNING; units], ..Job::default() };
    let mut choice = vec![];
    for _ in 0..units {
        let (first, second) = (random.between(0, COMMON), random.between(0, COMMON));
        job.lows.push(first.min(second));
        job.highs.push(first.max(second));
        choice.push(clamp(first.min(second), first.max(second), random.between(middle - apart, middle + apart)));
    }
    let mut order: Vec<usize> = (0..units).collect();
    for _ in 0..groups {
        random.shuffle(&mut order);
        job.groups.push(group_of_choice(&mut random, &choice, &order[..n]));
    }
    job
}

/// A group whose limits are the figures of a choice of shares, now and then one of them any.
fn group_of_choice(random: &mut Random, choice: &[u64], members: &[usize]) -> Group {
    let shares: Vec<u64> = members.iter().map(|&unit| choice[unit]).collect();
    let total = shares.iter().sum();
    let (deviation, spread, _) = figures(&shares, &vec![RUNNING; shares.len()], total);
    let mut limits =
        Limits { deviation: Limit::AtMost(deviation.0), spread: Limit::AtMost(spread.0), pairs: Limit::Any };
    match random.between(0, 3) {
        0 => limits.deviation = Limit::Any,
        1 => limits.spread = Limit::Any,
        _ => {}
    }
    Group { total, limits, says_pairs: false, members: members.to_vec() }
}

/// Two groups over the same two units whose totals differ by one: each pass takes one value off each end.
pub fn slow_job(width: u64) -> Job {
    let group =
        |total, members: [usize; 2]| Group { total, limits: Limits::ANY, says_pairs: false, members: members.to_vec() };
    let groups = vec![group(width, [0, 1]), group(width + 1, [1, 0])];
    Job { lows: vec![0; 2], highs: vec![width; 2], marks: vec![RUNNING; 2], groups }
}

/// A sound job text of nearly so many bytes, from 256 to 24 KiB.
pub fn sound_text(bytes: usize) -> Vec<u8> {
    let n = (bytes / 128).clamp(2, 64);
    let mut job = job(n.min(63), n);
    let mut text = print_job(&job);
    while text.len() > bytes {
        job.groups.pop().expect("the unit lines are short enough");
        text = print_job(&job);
    }
    text
}

/// A text of so many bytes, more than a sound one has: after a sound text comes a group line with more memberships than
/// a job may have, which begins with a name and has an ending after its members.
pub fn long_text(bytes: usize, name: &str, ending: &str) -> Vec<u8> {
    let mut text = sound_text(24 * 1_024);
    text.extend_from_slice(format!("({name} 0 (dev any) (spread any) (of 1").as_bytes());
    while text.len() + ending.len() + 1 < bytes {
        text.extend_from_slice(b" 2");
    }
    text.extend_from_slice(ending.as_bytes());
    text
}
