//! Writing: a settled job as a job text, so that reading its text and printing it anew are timed.

use crate::check::same;
use crate::planners::{BISECTION, PLANNER, WRITES};
use crate::table::{digits, Table};
use crate::timing::{in_turn, Contender, Times};
use crate::work::{Settled, SETTLED};
use danivomel::WRITTEN_BYTES;
use danivomel_tests::calls::Write;
use danivomel_tests::independent;
use std::hint::black_box;

/// Times writing.
pub fn run() -> (Table, Vec<Times>) {
    let head = ["job", "text, bytes", "planner, µs", "plain Rust, µs", "planner / plain Rust", "planner, ns a byte"];
    let mut table = Table::new("write", &head);
    let mut all = vec![];
    for (groups, n) in SETTLED {
        let settled = Settled::of(groups, n);
        let expected = independent::write::written(&settled.text, &settled.table, WRITTEN_BYTES);
        let expected = expected.expect("the job is written");
        let times = in_turn(WRITES.iter().map(|who| contender(*who, &settled, &expected)).collect(), 1);
        table.add(vec![
            format!("{groups} × {n}"),
            expected.len().to_string(),
            digits(times.of(PLANNER)),
            digits(times.of(BISECTION)),
            digits(times.ratio(PLANNER, BISECTION)),
            digits(times.of(PLANNER).map(|time| 1_000.0 * time / expected.len() as f64)),
        ]);
        all.push(times);
    }
    (table, all)
}

/// A contender that writes a job, after its answer and its text were compared.
fn contender<'a>(who: (&'static str, Write), settled: &'a Settled, expected: &[u8]) -> Contender<'a> {
    let (name, write) = who;
    let mut buffer = vec![0; WRITTEN_BYTES];
    same(name, "writing", write(&settled.text, &settled.table, &mut buffer), Ok(expected.len()));
    same(name, "text", buffer.starts_with(expected), true);
    Contender::whole(name, move || {
        let _ = black_box(write(black_box(&settled.text), &settled.table, black_box(&mut buffer)));
    })
}
