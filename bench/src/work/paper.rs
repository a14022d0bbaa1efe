//! The experiment of document 001, section 8: inconsistent instances found, and the percentage of values filtered, by
//! exact narrowing, by the paper's rule and by the decomposition. Shares are the paper's numbers plus 50.

use crate::check::{covers, same};
use crate::gecode::{self, Form, Outcome, Posted};
use crate::jobs::SEED;
use crate::plain;
use crate::planners::PLANNER;
use crate::rational::{filter_on, filter_once};
use crate::table::{digits, percent, Table};
use crate::timing::{is_trial, median};
use crate::work::{lone, values};
use danivomel::{Limit, Limits};
use danivomel_tests::cases::groups::GroupCase;
use danivomel_tests::random::Random;
use std::thread;
use std::time::Instant;

/// How many sets, in a trial a tenth of them, and how many variables each has.
const SETS: u64 = 20_000;
const VARIABLES: u64 = 50;
/// The sum of 50 numbers with mean 0.5, moved by 50 each.
const TOTAL: u64 = 25 + 50 * VARIABLES;
/// The maximum sums of deviations.
pub const MAXIMA: [u64; 9] = [200, 300, 400, 500, 600, 700, 800, 900, 1_000];

/// Who filters.
pub const FILTERS: [&str; 4] = ["exact", "001's rule", "001's rule, repeated", "decomposition"];

/// What the text of 001 says of its own instances, by maximum, for its rule and for its decomposition: inconsistent
/// instances found, the percentage of all inconsistent ones that its rule finds, and the percentage filtered.
const PUBLISHED_FOUND: (u64, [&str; 2]) = (500, ["9619", "3628"]);
const PUBLISHED_PART: (u64, &str) = (400, "99.66 %");
const PUBLISHED_FILTERED: (u64, [&str; 2]) = (500, ["11.8 %", "0.9 %"]);

/// What one filter did on the instances of one maximum.
#[derive(Default)]
pub struct Found {
    /// Inconsistent instances found.
    pub refused: u64,
    /// Values removed from consistent instances, in parts of their values, added up.
    pub filtered: f64,
    /// Microseconds spent on each instance.
    times: Vec<f64>,
}

/// What all filters did on the instances of one maximum.
#[derive(Default)]
pub struct Row {
    pub instances: u64,
    pub found: [Found; FILTERS.len()],
}

impl Row {
    /// The average percentage of values that a filter removes from the consistent instances.
    pub fn filtered(&self, filter: usize) -> Option<f64> {
        let consistent = self.instances - self.found[0].refused;
        (consistent > 0).then(|| 100.0 * self.found[filter].filtered / consistent as f64)
    }

    /// Two rows in one.
    fn plus(mut self, other: Row) -> Row {
        self.instances += other.instances;
        for (own, other) in self.found.iter_mut().zip(other.found) {
            own.refused += other.refused;
            own.filtered += other.filtered;
            own.times.extend(other.times);
        }
        self
    }
}

/// Runs the experiment, on two threads; answers its three tables and its rows.
pub fn run() -> ([Table; 3], Vec<Row>) {
    known();
    let sets = draw();
    let (ones, others) = sets.split_at(sets.len() / 2);
    let mut rows = vec![];
    for most in MAXIMA {
        let start = Instant::now();
        let row = thread::scope(|scope| {
            let second = scope.spawn(|| tried(others, most));
            tried(ones, most).plus(second.join().expect("both halves end"))
        });
        println!("  maximum {most}: {} sets in {:.1} s", row.instances, start.elapsed().as_secs_f64());
        rows.push(row);
    }
    ([found_table(&rows), filtered_table(&rows), time_table(&rows)], rows)
}

/// Examples 4 and 5 of 001: what its rule filters, and an inconsistency that it does not see.
fn known() {
    let (mut lows, mut highs) = ([8, 4, 1, 3], [10, 7, 5, 4]);
    same("001's rule", "example 4", filter_once(&mut lows, &mut highs, 20, 28), true);
    same("001's rule", "example 4", (lows, highs), ([8, 4, 3, 3], [8, 5, 5, 4]));
    let (mut lows, mut highs) = ([0; 10], [1; 10]);
    let limits = Limits { deviation: Limit::AtMost(30), ..Limits::ANY };
    same("001's rule", "example 5", filter_on(&mut lows, &mut highs, 5, 30), true);
    same("exact", "example 5", danivomel::narrow(&mut lows, &mut highs, &[0; 10], 5, limits).is_err(), true);
}

/// Sets of variables, each with domains between two random numbers from -50 to 50.
fn draw() -> Vec<GroupCase> {
    let mut random = Random::new(SEED + 30_000);
    let count = if is_trial() { SETS / 10 } else { SETS };
    let mut sets = vec![];
    for _ in 0..count {
        let mut ranges = vec![];
        for _ in 0..VARIABLES {
            let (first, second) = (random.between(0, 100), random.between(0, 100));
            ranges.push((first.min(second), first.max(second)));
        }
        sets.push(GroupCase::of(&ranges, TOTAL));
    }
    sets
}

/// Tries some sets with one maximum.
fn tried(sets: &[GroupCase], most: u64) -> Row {
    let mut row = Row::default();
    for set in sets {
        let case = set.clone().under(Limit::AtMost(VARIABLES * most), Limit::Any);
        try_one(&mut row, &case, VARIABLES * most);
    }
    row
}

/// A filter: narrows domains, and says whether it found no inconsistency.
type Filter<'a> = &'a dyn Fn(&mut [u64], &mut [u64]) -> bool;

/// Lets every filter work on one instance.
fn try_one(row: &mut Row, case: &GroupCase, limit: u64) {
    let mut expected = case.clone();
    let answer = plain::narrow(&mut expected.lows, &mut expected.highs, &case.marks, case.total, case.limits);
    let expected = answer.is_ok().then_some(expected);
    let posted = Posted::of(&[lone(case)]);
    let filters: [Filter; FILTERS.len()] = [
        &|lows, highs| danivomel::narrow(lows, highs, &case.marks, case.total, case.limits).is_ok(),
        &|lows, highs| filter_once(lows, highs, case.total, limit),
        &|lows, highs| filter_on(lows, highs, case.total, limit),
        &|lows, highs| gecode::propagate(&posted, lows, highs, Form::Written).0 != Outcome::Refused,
    ];
    row.instances += 1;
    for ((filter, name), found) in filters.into_iter().zip(FILTERS).zip(&mut row.found) {
        let after = found.try_filter(filter, case);
        if name == FILTERS[0] {
            same(PLANNER, "narrowed domains", &after, &expected);
        }
        if let Some(taken) = &expected {
            let left = after.expect("no filter refuses a consistent instance");
            covers(name, "filtering", (&left.lows, &left.highs), (&taken.lows, &taken.highs));
            let (all, left) = (values(&case.lows, &case.highs), values(&left.lows, &left.highs));
            found.filtered += (all - left) as f64 / all as f64;
        }
    }
}

impl Found {
    /// Lets the filter work on a copy of an instance, and times it; the domains left, if it finds no inconsistency.
    fn try_filter(&mut self, filter: Filter, case: &GroupCase) -> Option<GroupCase> {
        let mut after = case.clone();
        let start = Instant::now();
        let consistent = filter(&mut after.lows, &mut after.highs);
        self.times.push(start.elapsed().as_secs_f64() * 1e6);
        self.refused += u64::from(!consistent);
        consistent.then_some(after)
    }
}

/// A published figure, at its maximum.
fn published(own: u64, most: u64, figure: &str) -> String {
    if own == most {
        figure.to_string()
    } else {
        String::new()
    }
}

/// A table by maximum, with a column for each filter and more.
fn by_maximum(name: &'static str, rows: &[Row], more: &[&str], cells: impl Fn(u64, &Row) -> Vec<String>) -> Table {
    let mut head = vec!["maximum"];
    head.extend(FILTERS);
    head.extend(more);
    let mut table = Table::new(name, &head);
    for (&most, row) in MAXIMA.iter().zip(rows) {
        let mut line = vec![most.to_string()];
        line.extend(cells(most, row));
        table.add(line);
    }
    table
}

/// Inconsistent instances found.
fn found_table(rows: &[Row]) -> Table {
    let more = [
        "001's rule, in the paper",
        "decomposition, in the paper",
        "part found by 001's rule",
        "that part in the paper",
        "part found by the decomposition",
    ];
    by_maximum("paper_found", rows, &more, |most, row| {
        let mut cells: Vec<String> = row.found.iter().map(|found| found.refused.to_string()).collect();
        cells.extend(PUBLISHED_FOUND.1.map(|figure| published(PUBLISHED_FOUND.0, most, figure)));
        cells.push(percent(row.found[1].refused, row.found[0].refused));
        cells.push(published(PUBLISHED_PART.0, most, PUBLISHED_PART.1));
        cells.push(percent(row.found[3].refused, row.found[0].refused));
        cells
    })
}

/// The average percentage of values filtered from consistent instances.
fn filtered_table(rows: &[Row]) -> Table {
    let more = ["001's rule, in the paper", "decomposition, in the paper", "consistent instances"];
    by_maximum("paper_filtered", rows, &more, |most, row| {
        let filtered = |filter| row.filtered(filter).map_or(String::new(), |part| format!("{part:.2} %"));
        let mut cells: Vec<String> = (0..FILTERS.len()).map(filtered).collect();
        cells.extend(PUBLISHED_FILTERED.1.map(|figure| published(PUBLISHED_FILTERED.0, most, figure)));
        cells.push((row.instances - row.found[0].refused).to_string());
        cells
    })
}

/// Median microseconds for an instance.
fn time_table(rows: &[Row]) -> Table {
    by_maximum("paper_time", rows, &[], |_, row| {
        row.found.iter().map(|found| digits(Some(median(found.times.clone())))).collect()
    })
}
