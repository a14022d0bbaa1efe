//! Reporting: a job that is settled already, so that one quiet pass and the report are timed.

use crate::check::same;
use crate::planners::{BISECTION, PLANNER, REPORTS};
use crate::table::{digits, Table};
use crate::timing::{in_turn, Contender};
use crate::work::{Settled, SETTLED};
use danivomel::Reported;
use danivomel_tests::calls::Report;
use danivomel_tests::independent::{self, MOST_BYTES, SCRATCH_PER_UNIT};
use std::hint::black_box;

/// Times reporting.
pub fn run() -> Table {
    let head = ["job", "report, bytes", "planner, µs", "plain Rust, bisection, µs", "planner / plain Rust"];
    let mut table = Table::new("report", &head);
    for (groups, n) in SETTLED {
        let settled = Settled::of(groups, n);
        let mut buffer = vec![0; MOST_BYTES];
        let expected = settled.report(independent::report, &mut buffer);
        let contenders = REPORTS.iter().map(|who| contender(*who, &settled, expected, &buffer)).collect();
        let times = in_turn(contenders, 1);
        table.add(vec![
            format!("{groups} × {n}"),
            expected.length.to_string(),
            digits(times.of(PLANNER)),
            digits(times.of(BISECTION)),
            digits(times.ratio(PLANNER, BISECTION)),
        ]);
    }
    table
}

impl Settled {
    /// Reports the job into a buffer.
    fn report(&self, report: Report, buffer: &mut [u8]) -> Reported {
        let mut table = self.table.clone();
        let mut scratch = vec![0; SCRATCH_PER_UNIT * table.len()];
        report(&self.text, &mut table, &mut scratch, buffer).expect("the job is settled")
    }
}

/// A contender that reports, after its answer and its report were compared.
fn contender<'a>(
    who: (&'static str, Report),
    settled: &'a Settled,
    answer: Reported,
    expected: &[u8],
) -> Contender<'a> {
    let (name, report) = who;
    let mut buffer = vec![0; MOST_BYTES];
    same(name, "reporting", settled.report(report, &mut buffer), answer);
    same(name, "report", buffer == expected, true);
    Contender::whole(name, move || {
        black_box(settled.report(report, black_box(&mut buffer)));
    })
}
