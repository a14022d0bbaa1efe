//! The report for a person: what is left to each unit, and each group's shares and figures, in copies too.

use crate::job::{Group, Job};
use crate::plan::{Plan, Shared};
use danivomel::{Limit, Range, SHUT};

/// How many units' shares are on one line.
const ON_A_LINE: usize = 6;

/// The report of a settled job for a person; the name is what the job is called.
pub fn table(plan: &Plan, name: &str) -> String {
    let passes = counted(plan.passes as usize, "pass", "passes");
    let (units, groups) = (plan.left.len(), plan.shared.len());
    let heading = format!(
        "{name}: settled in {passes}; {}, {}\n",
        counted(units, "unit", "units"),
        counted(groups, "group", "groups")
    );
    let groups = plan.job.groups.iter().zip(&plan.shared).enumerate();
    let groups: String = groups.map(|(index, (group, shared))| of_group(plan.job, index + 1, group, shared)).collect();
    heading + "\n" + &ranges(plan) + &groups
}

/// A count with its noun.
pub fn counted(count: usize, one: &str, many: &str) -> String {
    format!("{count} {}", if count == 1 { one } else { many })
}

/// For each unit the range given and the range left.
fn ranges(plan: &Plan) -> String {
    let shown = |range: &Range| format!("{} to {}", range.low, range.high);
    let given: Vec<String> = plan.job.opening.iter().map(shown).collect();
    let left: Vec<String> = plan.left.iter().map(shown).collect();
    let width = |column: &[String]| column.iter().map(String::len).max().unwrap_or(0).max("given".len());
    let (given_width, left_width) = (width(&given), width(&left));
    let mut lines = format!("unit  {:>given_width$}  {:>left_width$}\n", "given", "left");
    for (index, mark) in plan.job.marks.iter().enumerate() {
        let (given, left) = match *mark {
            SHUT => ("shut", "shut"),
            _ => (&*given[index], &*left[index]),
        };
        lines += &format!("{:>4}  {given:>given_width$}  {left:>left_width$}\n", index + 1);
    }
    lines
}

/// A group's total, mean, shares and figures.
fn of_group(job: &Job, number: usize, group: &Group, shared: &Shared) -> String {
    let running = counted(shared.running, "running unit", "running units");
    let mean = copies(shared.mean());
    let level = shared.levelled.level;
    let heading = format!("\ngroup {number}: total {} over {running}, mean {mean}, level {level}\n", group.total);
    heading + &shares(job, group, shared) + &figures(group, shared)
}

/// The figures of a group's shares, what each is in copies, and what its limit leaves.
fn figures(group: &Group, shared: &Shared) -> String {
    let (levelled, limits) = (shared.levelled, group.limits);
    let [average, standard, between] =
        [shared.average_distance(), shared.standard_distance(), shared.average_difference()].map(copies);
    let lines = [
        ("deviation", levelled.deviation.0, format!("{average} copies from the mean on average"), limits.deviation),
        ("spread", levelled.spread.0, format!("a standard deviation of {standard} copies"), limits.spread),
        ("pairs", levelled.pairs.0, format!("{between} copies between two units on average"), limits.pairs),
    ];
    lines
        .iter()
        .map(|(name, figure, in_copies, limit)| format!("  {name} {figure}: {in_copies}{}\n", rest(*limit, *figure)))
        .collect()
}

/// The shares of a group's units, some on each line.
fn shares(job: &Job, group: &Group, shared: &Shared) -> String {
    let width = widest(shared.shares.iter()).max("shut".len());
    let number_width = widest(group.units.iter());
    let units = group.units.iter().zip(&shared.shares);
    let shown: Vec<String> = units
        .map(|(&unit, share)| match job.marks[unit - 1] {
            SHUT => format!("unit {unit:>number_width$} {:>width$}", "shut"),
            _ => format!("unit {unit:>number_width$} {share:>width$}"),
        })
        .collect();
    shown.chunks(ON_A_LINE).map(|line| format!("  {}\n", line.join("   "))).collect()
}

/// How wide the widest of some numbers is.
fn widest(numbers: impl Iterator<Item = impl ToString>) -> usize {
    numbers.map(|number| number.to_string().len()).max().unwrap_or(0)
}

/// What a limit leaves beyond a figure; a settled group's figures are within its limits.
fn rest(limit: Limit, figure: u64) -> String {
    match limit {
        Limit::Any => "; no limit".to_string(),
        Limit::AtMost(most) => format!("; limit {most}, {} left", most - figure),
    }
}

/// A number of copies with two decimals at most.
pub fn copies(number: f64) -> String {
    let shown = format!("{number:.2}");
    shown.trim_end_matches('0').trim_end_matches('.').to_string()
}
