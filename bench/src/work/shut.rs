//! Shut members: levelling and narrowing groups, and settling jobs, a third of whose members are shut; and the same work on
//! the running members alone.

use super::settle::Case;
use super::{level, narrow, settle};
use crate::jobs::{shut_groups, shut_job, Tightness};
use crate::planners::{ALONE, BISECTION, LEVELS, NARROWS, PLANNER, ROWS, SETTLES};
use crate::table::{digits, Table};
use crate::timing::{in_turn, Contender, Times};
use danivomel_tests::cases::groups::GroupCase;
use danivomel_tests::independent::GREATEST_SHARE;

/// The columns of the table.
const HEAD: [&str; 8] = [
    "work",
    "members",
    "of them shut",
    "planner, µs",
    "plain Rust, bisection, µs",
    "plain Rust, rows, µs",
    "planner / plain Rust, same way",
    "planner, running members alone, µs",
];

/// Times all work.
pub fn run() -> Table {
    let mut table = Table::new("shut", &HEAD);
    for n in [8, 64, 256] {
        table.add(row("levelling", n, &level_times(n), BISECTION));
    }
    for n in [8, 64, 256] {
        table.add(row("narrowing, tight, first", n, &narrow_times(n), ROWS));
    }
    for (groups, n) in [(64, 8), (16, 256)] {
        table.add(row(&format!("settling, {groups} groups"), n, &settle_times(groups, n), ROWS));
    }
    table
}

/// The cells of one kind of work, beside plain Rust of the same way.
fn row(work: &str, n: usize, times: &Times, same_way: &str) -> Vec<String> {
    vec![
        work.to_string(),
        n.to_string(),
        (n / 3).to_string(),
        digits(times.of(PLANNER)),
        digits(times.of(BISECTION)),
        digits(times.of(ROWS)),
        digits(times.ratio(PLANNER, same_way)),
        digits(times.of(ALONE)),
    ]
}

/// Times levelling.
fn level_times(n: usize) -> Times {
    let groups = shut_groups(n, GREATEST_SHARE, Tightness::Loose);
    let alone: Vec<GroupCase> = groups.iter().map(GroupCase::running).collect();
    let mut contenders: Vec<Contender> = LEVELS.iter().map(|who| level::contender(*who, &groups)).collect();
    contenders.push(level::contender((ALONE, danivomel::level), &alone));
    in_turn(contenders, groups.len())
}

/// Times narrowing.
fn narrow_times(n: usize) -> Times {
    let groups = shut_groups(n, GREATEST_SHARE, Tightness::Tight);
    let alone: Vec<GroupCase> = groups.iter().map(GroupCase::running).collect();
    let narrowed = narrow::narrowed_by_plain(&groups);
    let mut contenders: Vec<Contender> = vec![];
    for &(name, call) in NARROWS {
        narrow::compare(name, call, &groups, &narrowed);
        contenders.push(narrow::first_call(name, call, &groups));
    }
    narrow::compare(ALONE, danivomel::narrow, &alone, &narrow::narrowed_by_plain(&alone));
    contenders.push(narrow::first_call(ALONE, danivomel::narrow, &alone));
    in_turn(contenders, groups.len())
}

/// Times settling.
fn settle_times(groups: usize, n: usize) -> Times {
    let (job, rest) = shut_job(groups, n);
    let (case, alone) = (Case::of(format!("{groups} × {n}, a third shut"), job), Case::of(ALONE.to_string(), rest));
    let mut contenders: Vec<Contender> = SETTLES.iter().map(|who| settle::contender(*who, &case)).collect();
    contenders.push(settle::contender((ALONE, danivomel::settle), &alone));
    in_turn(contenders, 1)
}
