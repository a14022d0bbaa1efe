//! The goals of the planner's speed, each with its figure in this run.

use crate::jobs::Tightness;
use crate::planners::{BISECTION, GECODE, GECODE_ALONE, PLANNER, ROWS, WITHOUT};
use crate::table::{digits, Table};
use crate::timing::Times;
use crate::work::{narrow, pairs};

/// The times that goals are about.
pub struct Results {
    pub level: Vec<Times>,
    pub headroom: Vec<(usize, Times)>,
    pub narrow: Vec<narrow::Timed>,
    pub unkind: Vec<(usize, Times)>,
    pub pairs: Vec<pairs::Timed>,
    pub read: Vec<Times>,
    pub settle: Vec<(String, Times)>,
    pub write: Vec<Times>,
}

/// A goal: what is measured, the figure, and whether it should be at most or at least a number.
struct Goal {
    what: &'static str,
    figure: Option<f64>,
    most: bool,
    bound: f64,
}

/// The goals as a table.
pub fn run(results: &Results) -> Table {
    let mut table = Table::new("goals", &["goal", "figure", "bound", "met"]);
    let mut all = goals(results);
    all.extend(pairs_goals(&results.pairs));
    all.push(headroom_goal(&results.headroom));
    for Goal { what, figure, most, bound } in all {
        let figure = figure.expect("every goal is measured");
        let met = if most { figure <= bound } else { figure >= bound };
        table.add(vec![
            what.to_string(),
            digits(Some(figure)),
            format!("at {} {bound}", if most { "most" } else { "least" }),
            if met { "yes" } else { "no" }.to_string(),
        ]);
    }
    table
}

/// All goals.
fn goals(results: &Results) -> Vec<Goal> {
    let Results { level, narrow, unkind, read, settle, write, .. } = results;
    let sized =
        || narrow.iter().map(|timed| (timed.n, &timed.times)).chain(unkind.iter().map(|(n, times)| (*n, times)));
    let narrowing = || sized().map(|(_, times)| times);
    let of_size = |many: bool| sized().filter(move |(n, _)| (*n >= 8) == many).map(|(_, times)| times);
    let settling = || settle.iter().map(|(_, times)| times);
    let tight = |n: usize| narrow.iter().filter(move |timed| timed.n == n && timed.tightness == Tightness::Tight);
    let faster = |n: usize| least(tight(n).map(|timed| timed.times.ratio(BISECTION, PLANNER)));
    let grows = |first: bool| {
        let time = |n: usize| tight(n).find(|timed| timed.first == first)?.times.of(PLANNER);
        Some(time(256)? / time(64)?)
    };
    let milliseconds =
        |job: &str| settle.iter().find(|(name, _)| name == job)?.1.of(PLANNER).map(|time| time / 1_000.0);
    vec![
        goal("levelling, planner / plain Rust, greatest of all sizes", worst(level.iter(), BISECTION), true, 1.2),
        goal(
            "narrowing 8 members and more, planner / plain Rust of the same way, greatest of all rows",
            worst(of_size(true), ROWS),
            true,
            1.2,
        ),
        goal(
            "narrowing fewer members, planner / plain Rust of the same way, greatest of all rows",
            worst(of_size(false), ROWS),
            true,
            1.35,
        ),
        goal("reading, planner / plain Rust, greatest of all texts", worst(read.iter(), BISECTION), true, 1.2),
        goal(
            "settling, planner / plain Rust of the same way, greatest of all jobs",
            worst(settling(), ROWS),
            true,
            1.2,
        ),
        goal("writing, planner / plain Rust, greatest of all jobs", worst(write.iter(), BISECTION), true, 1.2),
        goal("narrowing 64 members, times as fast as by bisection", faster(64), false, 5.0),
        goal("narrowing 256 members, times as fast as by bisection", faster(256), false, 20.0),
        goal("narrowing, planner / Gecode, greatest of all rows", worst(narrowing(), GECODE), true, 0.25),
        goal(
            "narrowing, planner / Gecode's propagation alone, greatest of all rows",
            worst(narrowing(), GECODE_ALONE),
            true,
            0.5,
        ),
        goal("narrowing, first call, 256 members to 64", grows(true), true, 4.5),
        goal("narrowing, quiet call, 256 members to 64", grows(false), true, 4.5),
        goal("settling 16 × 256, milliseconds", milliseconds("16 × 256"), true, 20.0),
        goal("settling 64 × 8, milliseconds", milliseconds("64 × 8"), true, 2.0),
    ]
}

/// The goals of narrowing with a pairs limit.
fn pairs_goals(pairs: &[pairs::Timed]) -> Vec<Goal> {
    let times =
        |chosen: fn(&pairs::Timed) -> bool| pairs.iter().filter(move |timed| chosen(timed)).map(|timed| &timed.times);
    vec![
        goal(
            "narrowing with a pairs limit as tight as the others, planner / without it, greatest of all rows",
            worst(times(|timed| timed.pairs == timed.tightness), WITHOUT),
            true,
            2.0,
        ),
        goal(
            "narrowing with a tight pairs limit beside two loose ones, planner / without it, greatest of all rows",
            worst(times(|timed| timed.pairs != timed.tightness), WITHOUT),
            true,
            2.0,
        ),
        goal(
            "narrowing 8 members and more with a pairs limit, planner / plain Rust of the same way, greatest of all rows",
            worst(times(|timed| timed.n >= 8), ROWS),
            true,
            1.2,
        ),
        goal(
            "narrowing fewer members with a pairs limit, planner / plain Rust of the same way, greatest of all rows",
            worst(times(|timed| timed.n < 8), ROWS),
            true,
            1.35,
        ),
    ]
}

/// The goal of levelling with copies left over.
fn headroom_goal(headroom: &[(usize, Times)]) -> Goal {
    let what =
        "levelling 8 members and more with a copy left over for half, planner / plain Rust, greatest of all rows";
    let many = headroom.iter().filter(|(n, _)| *n >= 8).map(|(_, times)| times);
    goal(what, worst(many, BISECTION), true, 1.2)
}

/// A goal.
fn goal(what: &'static str, figure: Option<f64>, most: bool, bound: f64) -> Goal {
    Goal { what, figure, most, bound }
}

/// The greatest ratio of the planner's time to another's.
fn worst<'a>(times: impl Iterator<Item = &'a Times>, other: &str) -> Option<f64> {
    times.filter_map(|times| times.ratio(PLANNER, other)).max_by(f64::total_cmp)
}

/// The least of some figures.
fn least(figures: impl Iterator<Item = Option<f64>>) -> Option<f64> {
    figures.flatten().min_by(f64::total_cmp)
}
