//! A refusal in words: what it means, the line or the group itself, and what to do about it.

use crate::call::GivenGroup;
use crate::causes::causes;
use crate::faults::faults;
use crate::job::{Job, Members};
use crate::line::{form, seen};
use danivomel::{level, Limit, Limits, Refusal, Unsettled};

/// What a person is told: a heading, and lines with a label each below it.
struct Told(String);

impl Told {
    /// The heading: number, place, reason and, where there are any, passes.
    fn of(name: &str, refusal: Refusal, counted: &str, passes: u64) -> Told {
        let at = if refusal.place == 0 { String::new() } else { format!(" at {counted} {}", refusal.place) };
        let pass = if passes == 0 { String::new() } else { format!(" (in pass {passes})") };
        Told(format!("danivomel: {name}: refused {}{at}: {}{pass}\n", refusal.number, refusal.reason()))
    }

    /// One more line.
    fn add(&mut self, label: &str, text: &str) {
        self.0 += &format!("  {:<12}{text}\n", format!("{label}:"));
    }

    /// All of it, what to do at the end.
    fn ending(mut self, refusal: Refusal) -> String {
        self.add("what to do", refusal.advice());
        self.0
    }
}

/// A refusal of a job text (2 to 10, 13 to 15) in words.
pub fn on_text(name: &str, text: &[u8], refusal: Refusal) -> String {
    let mut told = Told::of(name, refusal, "line", 0);
    let lines: Vec<&[u8]> = text.split_inclusive(|&byte| byte == b'\n').collect();
    let (before, line) = match refusal.place {
        0 => return told.ending(refusal),
        place => (&lines[..place as usize - 1], lines[place as usize - 1]),
    };
    told.add(&format!("line {}", refusal.place), &seen(line, refusal.number));
    let found = match refusal.number {
        3 | 13..=15 => causes(line, refusal.number),
        number => faults(before, line, number),
    };
    found.iter().for_each(|cause| told.add("found", cause));
    if matches!(refusal.number, 3 | 14 | 15) {
        told.add("the form", form(line));
    }
    told.ending(refusal)
}

/// A refusal of a job's group (11, 12) in words: what the group asks for, and what its units can do in the opening table.
pub fn on_group(name: &str, job: &Job, unsettled: Unsettled) -> String {
    let Unsettled { refusal, passes } = unsettled;
    let mut told = Told::of(name, refusal, "group", passes);
    let number = job.opening.len() + refusal.place as usize;
    let lines: Vec<&[u8]> = job.text.split_inclusive(|&byte| byte == b'\n').collect();
    let group = &job.groups[refusal.place as usize - 1];
    told.add(&format!("line {number}"), &seen(lines[number - 1], refusal.number));
    if opening(&mut told, group.total, group.limits, &job.members(group, &job.opening)) {
        told.add("found", "alone the group has a plan there: it is the other groups that narrow its units too far");
    }
    told.ending(refusal)
}

/// A refusal of the group on the command line (1, 4, 7, 11, 12) in words.
pub fn on_lists(name: &str, group: &GivenGroup, refusal: Refusal) -> String {
    let mut told = Told::of(name, refusal, "unit", 0);
    let members = &group.members;
    match (refusal.number, refusal.place) {
        (1, _) => told.add("units", &format!("{} are given, and a group has 1 to 256", members.lows.len())),
        (4, 0) => told.add("given", &format!("total {}, {}", shown(group.total), limits_shown(group.limits))),
        (4 | 7, unit) => {
            let index = unit as usize - 1;
            told.add(
                &format!("unit {unit}"),
                &format!("{}..{}", shown(members.lows[index]), shown(members.highs[index])),
            );
        }
        _ => {
            opening(&mut told, group.total, group.limits, members);
        }
    }
    told.ending(refusal)
}

/// Adds what a group asks for and what its units can do: the sums of lows and highs, and where the total can be made the
/// least figures, which one choice of shares has, and the limits below them. Answers whether the group alone has a plan.
fn opening(told: &mut Told, total: u64, limits: Limits, members: &Members) -> bool {
    let (lows, highs): (u64, u64) = (members.lows.iter().sum(), members.highs.iter().sum());
    told.add("opening", &format!("total {total}; the lows of its units add up to {lows}, their highs to {highs}"));
    let mut shares = vec![0; members.lows.len()];
    let least = match level(&members.lows, &members.highs, &members.marks, total, &mut shares) {
        Ok(least) => least,
        Err(_) => return false,
    };
    let (deviation, spread, pairs) = (least.deviation.0, least.spread.0, least.pairs.0);
    let figures = format!("deviation {deviation}, spread {spread}, pairs {pairs}");
    told.add("at least", &format!("{figures}; {}", limits_shown(limits)));
    let limits =
        [("dev", limits.deviation, deviation), ("spread", limits.spread, spread), ("pairs", limits.pairs, pairs)];
    let broken: Vec<_> = limits.into_iter().filter(|(_, limit, least)| !allows(*limit, *least)).collect();
    for (name, limit, least) in &broken {
        told.add("found", &format!("({name} {}) cannot be met: {least} is the least", limit_shown(*limit)));
    }
    broken.is_empty()
}

/// Whether a limit allows a figure.
fn allows(limit: Limit, figure: u64) -> bool {
    match limit {
        Limit::Any => true,
        Limit::AtMost(most) => figure <= most,
    }
}

/// The three limits, as they are written.
fn limits_shown(limits: Limits) -> String {
    let [deviation, spread, pairs] = [limits.deviation, limits.spread, limits.pairs].map(limit_shown);
    format!("limits dev {deviation}, spread {spread}, pairs {pairs}")
}

/// A limit, as it is written.
fn limit_shown(limit: Limit) -> String {
    match limit {
        Limit::Any => "any".to_string(),
        Limit::AtMost(most) => shown(most),
    }
}

/// A number as it is written; the greatest stands for all that 64 bits cannot hold.
fn shown(number: u64) -> String {
    match number {
        u64::MAX => format!("{number} or more"),
        _ => number.to_string(),
    }
}
