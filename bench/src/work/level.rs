//! Levelling one group.

use crate::check::same;
use crate::jobs::{groups_of, Tightness, SIZES};
use crate::planners::{BISECTION, LEVELS, PLANNER};
use crate::table::{digits, Table};
use crate::timing::{in_turn, Contender, Times};
use danivomel_tests::calls::Level;
use danivomel_tests::cases::groups::GroupCase;
use danivomel_tests::independent::{self, GREATEST_SHARE};
use std::hint::black_box;

/// Times levelling for every size.
pub fn run() -> (Table, Vec<Times>) {
    let head = ["members", "planner, µs", "plain Rust, µs", "planner / plain Rust", "planner, ns a member"];
    let mut table = Table::new("level", &head);
    let mut all = vec![];
    for n in SIZES {
        let groups = groups_of(n, GREATEST_SHARE, Tightness::Loose);
        let times = in_turn(LEVELS.iter().map(|who| contender(*who, &groups)).collect(), groups.len());
        table.add(vec![
            n.to_string(),
            digits(times.of(PLANNER)),
            digits(times.of(BISECTION)),
            digits(times.ratio(PLANNER, BISECTION)),
            digits(times.of(PLANNER).map(|time| 1_000.0 * time / n as f64)),
        ]);
        all.push(times);
    }
    (table, all)
}

/// A contender that levels all groups, after its answers were compared.
pub fn contender<'a>(who: (&'static str, Level), groups: &'a [GroupCase]) -> Contender<'a> {
    let (name, level) = who;
    for case in groups {
        let (mut plan, mut expected) = (vec![0; case.lows.len()], vec![0; case.lows.len()]);
        let answer = independent::level(&case.lows, &case.highs, &case.marks, case.total, &mut expected);
        same(name, "levelling", level(&case.lows, &case.highs, &case.marks, case.total, &mut plan), answer);
        same(name, "levelled shares", plan, expected);
    }
    let mut plan = vec![0; groups[0].lows.len()];
    Contender::whole(name, move || {
        for case in groups {
            let _ = black_box(level(black_box(&case.lows), &case.highs, &case.marks, case.total, &mut plan));
        }
    })
}
