//! Narrowing groups that are unkind to a search for ends.

use crate::planners::{BISECTION, GECODE, GECODE_ALONE, PLANNER, ROWS};
use crate::table::{digits, Table};
use crate::timing::Times;
use crate::unkind::families;
use crate::work::narrow::measure;

/// Times narrowing of every family, for the first time and once nothing moves.
pub fn run() -> (Table, Vec<(usize, Times)>) {
    let head = [
        "groups",
        "members",
        "call",
        "planner, µs",
        "plain Rust, bisection, µs",
        "plain Rust, rows, µs",
        "Gecode, µs",
        "Gecode, propagation alone, µs",
        "planner / plain Rust, same way",
        "planner / Gecode",
        "planner / Gecode, propagation alone",
    ];
    let mut table = Table::new("unkind", &head);
    let mut all = vec![];
    for n in [8, 64, 256] {
        for (name, groups) in families(n) {
            for first in [true, false] {
                let times = measure(groups.clone(), first, true);
                let mut row = vec![name.to_string(), n.to_string(), if first { "first" } else { "quiet" }.to_string()];
                row.extend([PLANNER, BISECTION, ROWS, GECODE, GECODE_ALONE].map(|who| digits(times.of(who))));
                row.extend([ROWS, GECODE, GECODE_ALONE].map(|who| digits(times.ratio(PLANNER, who))));
                table.add(row);
                all.push((n, times));
            }
        }
    }
    (table, all)
}
