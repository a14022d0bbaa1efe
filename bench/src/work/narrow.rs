//! Narrowing one group: for the first time, and again once nothing moves.

use crate::check::{covers, same};
use crate::gecode::{self, Form, Outcome, Posted, Problem};
use crate::jobs::{groups_of, Tightness, COMMON, SIZES};
use crate::planners::{BISECTION, GECODE, GECODE_ALONE, NARROWS, PLANNER, ROWS};
use crate::table::{digits, Table};
use crate::timing::{in_turn, Contender, Times};
use crate::work::lone;
use danivomel_tests::calls::Narrow;
use danivomel_tests::cases::groups::GroupCase;
use danivomel_tests::independent::{self, GREATEST_SHARE};
use std::hint::black_box;

/// What was timed: the members, the limits, whether for the first time, and the times.
pub struct Timed {
    pub n: usize,
    pub tightness: Tightness,
    pub first: bool,
    pub times: Times,
}

/// Times narrowing for every size, with shares that Gecode can square.
pub fn run() -> (Table, Vec<Timed>) {
    let head = [
        "members",
        "limits",
        "call",
        "planner, µs",
        "plain Rust, bisection, µs",
        "plain Rust, rows, µs",
        "Gecode, µs",
        "Gecode, propagation alone, µs",
        "planner / plain Rust, same way",
        "planner / Gecode",
        "planner / Gecode, propagation alone",
    ];
    let mut table = Table::new("narrow", &head);
    let mut all = vec![];
    for n in SIZES {
        for (tightness, first) in kinds() {
            let times = measure(groups_of(n, COMMON, tightness), first, true);
            let mut row = row(n, tightness, first, &times);
            row.push(digits(times.of(GECODE)));
            row.push(digits(times.of(GECODE_ALONE)));
            row.push(digits(times.ratio(PLANNER, ROWS)));
            row.push(digits(times.ratio(PLANNER, GECODE)));
            row.push(digits(times.ratio(PLANNER, GECODE_ALONE)));
            table.add(row);
            all.push(Timed { n, tightness, first, times });
        }
    }
    (table, all)
}

/// Times narrowing with shares up to the greatest, where Gecode cannot take part.
pub fn run_wide() -> Table {
    let head = [
        "members",
        "limits",
        "call",
        "planner, µs",
        "plain Rust, bisection, µs",
        "plain Rust, rows, µs",
        "planner / plain Rust, same way",
    ];
    let mut table = Table::new("narrow_wide", &head);
    for n in [8, 64, 256] {
        for (tightness, first) in kinds() {
            let times = measure(groups_of(n, GREATEST_SHARE, tightness), first, false);
            let mut row = row(n, tightness, first, &times);
            row.push(digits(times.ratio(PLANNER, ROWS)));
            table.add(row);
        }
    }
    table
}

/// The four kinds of calls.
fn kinds() -> [(Tightness, bool); 4] {
    use Tightness::{Loose, Tight};
    [(Loose, true), (Loose, false), (Tight, true), (Tight, false)]
}

/// The cells that both tables begin with.
fn row(n: usize, tightness: Tightness, first: bool, times: &Times) -> Vec<String> {
    vec![
        n.to_string(),
        format!("{tightness:?}").to_lowercase(),
        if first { "first" } else { "quiet" }.to_string(),
        digits(times.of(PLANNER)),
        digits(times.of(BISECTION)),
        digits(times.of(ROWS)),
    ]
}

/// Times all contenders on groups of one size.
pub fn measure(groups: Vec<GroupCase>, first: bool, gecode: bool) -> Times {
    let asked = Asked::of(groups, first);
    let mut contenders: Vec<Contender> = NARROWS.iter().map(|who| asked.contender(*who)).collect();
    if gecode {
        contenders.extend(asked.gecode(Form::Centred));
    }
    in_turn(contenders, asked.groups.len())
}

/// What contenders are asked to narrow, for the first time or once nothing moves, and what should be left.
pub struct Asked {
    pub groups: Vec<GroupCase>,
    narrowed: Vec<GroupCase>,
    first: bool,
}

impl Asked {
    /// Some groups as they are, or as narrowing leaves them.
    pub fn of(groups: Vec<GroupCase>, first: bool) -> Asked {
        let narrowed = narrowed_by_plain(&groups);
        Asked { groups: if first { groups } else { narrowed.clone() }, narrowed, first }
    }

    /// A contender that narrows all groups, after its answers were compared.
    pub fn contender(&self, who: (&'static str, Narrow)) -> Contender<'_> {
        let (name, narrow) = who;
        compare(name, narrow, &self.groups, &self.narrowed);
        if self.first {
            return first_call(name, narrow, &self.groups);
        }
        quiet_call(name, narrow, &self.groups)
    }

    /// Gecode's two contenders in a form, after what they leave was compared.
    pub fn gecode(&self, form: Form) -> [Contender<'_>; 2] {
        compare_gecode(&self.groups, &self.narrowed, form);
        gecode::contenders(self.groups.iter().map(problem).collect(), form)
    }
}

/// The groups as the independent planner narrows them.
pub fn narrowed_by_plain(groups: &[GroupCase]) -> Vec<GroupCase> {
    let mut narrowed = groups.to_vec();
    for GroupCase { lows, highs, marks, total, limits } in &mut narrowed {
        independent::narrow(lows, highs, marks, *total, *limits).expect("the group has a plan");
    }
    narrowed
}

/// A group as Gecode takes it.
fn problem(case: &GroupCase) -> Problem<'_> {
    Problem { lows: &case.lows, highs: &case.highs, posted: Posted::of(&[lone(case)]) }
}

/// Compares a planner's ranges with those of the independent one.
pub fn compare(name: &str, narrow: Narrow, groups: &[GroupCase], narrowed: &[GroupCase]) {
    for (case, expected) in groups.iter().zip(narrowed) {
        let mut after = case.clone();
        let answer = narrow(&mut after.lows, &mut after.highs, &case.marks, case.total, case.limits);
        same(name, "narrowing", answer, Ok(()));
        same(name, "narrowed ranges", &after, expected);
    }
}

/// Narrows a copy of all groups.
pub fn first_call<'a>(name: &'static str, narrow: Narrow, groups: &'a [GroupCase]) -> Contender<'a> {
    let (mut lows, mut highs) = (groups[0].lows.clone(), groups[0].highs.clone());
    Contender::whole(name, move || {
        for case in groups {
            lows.copy_from_slice(&case.lows);
            highs.copy_from_slice(&case.highs);
            let _ = black_box(narrow(black_box(&mut lows), &mut highs, &case.marks, case.total, case.limits));
        }
    })
}

/// Narrows all groups in place: nothing moves.
fn quiet_call<'a>(name: &'static str, narrow: Narrow, groups: &'a [GroupCase]) -> Contender<'a> {
    let mut groups = groups.to_vec();
    Contender::whole(name, move || {
        for GroupCase { lows, highs, marks, total, limits } in &mut groups {
            let _ = black_box(narrow(black_box(lows), highs, marks, *total, *limits));
        }
    })
}

/// Checks that Gecode keeps every value that some plan takes.
fn compare_gecode(groups: &[GroupCase], narrowed: &[GroupCase], form: Form) {
    for (case, taken) in groups.iter().zip(narrowed) {
        let mut left = case.clone();
        let posted = Posted::of(&[lone(case)]);
        let (outcome, _) = gecode::propagate(&posted, &mut left.lows, &mut left.highs, form);
        same(GECODE, "posting and propagating", matches!(outcome, Outcome::Left(_)), true);
        covers(GECODE, "narrowing", (&left.lows, &left.highs), (&taken.lows, &taken.highs));
    }
}
