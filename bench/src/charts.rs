//! The benchmark's charts, and the table of growth that one of them shows.

use crate::chart::{svg, Line, Panel, Scale};
use crate::jobs::Tightness;
use crate::planners::{BISECTION, GECODE, GECODE_ALONE, PLANNER, ROWS};
use crate::table::{digits, Table};
use crate::work::narrow::Timed;
use crate::work::paper::{Row, FILTERS, MAXIMA};

/// Who narrows, in the charts' order.
const NARROWING: [&str; 5] = [PLANNER, BISECTION, ROWS, GECODE, GECODE_ALONE];

/// The points of a contender: members and microseconds, under tight limits.
fn points(timed: &[Timed], name: &str, first: bool) -> Vec<(f64, f64)> {
    let chosen = timed.iter().filter(|timed| timed.tightness == Tightness::Tight && timed.first == first);
    chosen.filter_map(|timed| Some((timed.n as f64, timed.times.of(name)?))).collect()
}

/// Time for a narrowing by the number of members.
pub fn narrow(timed: &[Timed]) -> String {
    let panel = |title: &str, first: bool| {
        let lines = NARROWING.map(|name| Line { name: name.to_string(), points: points(timed, name, first) });
        Panel {
            title: title.to_string(),
            across: "members".to_string(),
            up: "microseconds".to_string(),
            scale: Scale::Logarithmic,
            lines: lines.into(),
        }
    };
    svg(&[panel("Narrowing, first call, tight limits", true), panel("Narrowing, quiet call, tight limits", false)])
}

/// How the time for a narrowing grows with the members: under tight limits, first and quiet calls.
pub fn growth(timed: &[Timed]) -> Table {
    let head = ["who", "call", "ns a member, n = 8", "n = 64", "n = 256", "n = 64 to 256, times as long"];
    let mut table = Table::new("growth", &head);
    for name in NARROWING {
        for first in [true, false] {
            let points = points(timed, name, first);
            let at = |n: f64| points.iter().find(|point| point.0 == n).map(|point| point.1);
            let a_member = |n: f64| digits(at(n).map(|time| 1_000.0 * time / n));
            table.add(vec![
                name.to_string(),
                if first { "first" } else { "quiet" }.to_string(),
                a_member(8.0),
                a_member(64.0),
                a_member(256.0),
                digits(at(64.0).zip(at(256.0)).map(|(few, many)| many / few)),
            ]);
        }
    }
    table
}

/// 001's experiment: inconsistent instances found, and the percentage filtered, by the maximum sum of deviations.
pub fn paper(rows: &[Row]) -> String {
    let lines = |height: &dyn Fn(&Row, usize) -> Option<f64>| {
        let line = |filter: usize| {
            let points = MAXIMA.iter().zip(rows).filter_map(|(&most, row)| Some((most as f64, height(row, filter)?)));
            Line { name: FILTERS[filter].to_string(), points: points.collect() }
        };
        (0..FILTERS.len()).map(line).collect()
    };
    let panel = |title: &str, up: &str, lines| Panel {
        title: title.to_string(),
        across: "maximum sum of deviations".to_string(),
        up: up.to_string(),
        scale: Scale::Even,
        lines,
    };
    svg(&[
        panel(
            "Inconsistent instances found",
            "of 20,000",
            lines(&|row, filter| Some(row.found[filter].refused as f64)),
        ),
        panel("Values filtered from consistent instances", "percent", lines(&|row, filter| row.filtered(filter))),
    ])
}
