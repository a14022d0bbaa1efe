//! Copies left over: levelling groups all of whose members grow and half of which get a copy, and the same groups with no
//! copy left over.

use super::level::contender;
use crate::jobs::{growing_groups, Highs, SIZES};
use crate::planners::{BISECTION, LEVELS, NONE_LEFT, PLANNER};
use crate::table::{digits, Table};
use crate::timing::{in_turn, Contender, Times};
use danivomel_tests::cases::groups::GroupCase;

/// The columns of the table.
const HEAD: [&str; 8] = [
    "members",
    "highs",
    "copies left over",
    "planner, µs",
    "plain Rust, µs",
    "planner / plain Rust",
    "planner, no copy left over, µs",
    "with / without",
];

/// Times levelling for every size and both kinds of highs.
pub fn run() -> (Table, Vec<(usize, Times)>) {
    let mut table = Table::new("headroom", &HEAD);
    let mut all = vec![];
    for n in SIZES {
        for highs in [Highs::Different, Highs::Equal] {
            let times = measure(n, highs);
            table.add(row(n, highs, &times));
            all.push((n, times));
        }
    }
    (table, all)
}

/// Times all contenders on groups of one size.
fn measure(n: usize, highs: Highs) -> Times {
    let groups = growing_groups(n, highs);
    let without = |case: &GroupCase| GroupCase { total: case.total - n as u64 / 2, ..case.clone() };
    let none_left: Vec<GroupCase> = groups.iter().map(without).collect();
    let mut contenders: Vec<Contender> = LEVELS.iter().map(|who| contender(*who, &groups)).collect();
    contenders.push(contender((NONE_LEFT, danivomel::level), &none_left));
    in_turn(contenders, groups.len())
}

/// The cells of one size and kind of highs.
fn row(n: usize, highs: Highs, times: &Times) -> Vec<String> {
    vec![
        n.to_string(),
        format!("all {highs:?}").to_lowercase(),
        (n / 2).to_string(),
        digits(times.of(PLANNER)),
        digits(times.of(BISECTION)),
        digits(times.ratio(PLANNER, BISECTION)),
        digits(times.of(NONE_LEFT)),
        digits(times.ratio(PLANNER, NONE_LEFT)),
    ]
}
