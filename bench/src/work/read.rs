//! Reading job texts.

use crate::check::same;
use crate::jobs::{long_text, sound_text};
use crate::planners::{BISECTION, PLANNER, READS};
use crate::table::{digits, Table};
use crate::timing::{in_turn, Contender, Times};
use danivomel::Range;
use danivomel_tests::calls::Read;
use danivomel_tests::independent::{self, MOST_UNITS};
use std::hint::black_box;

/// An entry that no text fills in.
const NONE: Range = Range { low: 8, high: 7 };

/// Times reading.
pub fn run() -> (Table, Vec<Times>) {
    let head = [
        "text",
        "bytes",
        "lines",
        "answer",
        "planner, µs",
        "plain Rust, µs",
        "planner / plain Rust",
        "planner, ns a byte",
    ];
    let mut table = Table::new("read", &head);
    let mut all = vec![];
    let texts = [
        ("1 KiB", sound_text(1_024)),
        ("8 KiB", sound_text(8 * 1_024)),
        ("24 KiB", sound_text(24 * 1_024)),
        ("64 KiB", long_text(64 * 1_024, "group", "))\n")),
        ("64 KiB, a space at its end", long_text(64 * 1_024, "group", ")) \n")),
        ("64 KiB, no line feed at its end", long_text(64 * 1_024, "group", "))")),
        ("64 KiB, a bracket missing", long_text(64 * 1_024, "group", ")\n")),
        ("64 KiB, a word misspelt", long_text(64 * 1_024, "groups", "))\n")),
    ];
    for (name, text) in texts {
        let times = in_turn(READS.iter().map(|who| contender(*who, &text)).collect(), 1);
        let answer = match independent::read(&text, &mut [NONE; MOST_UNITS]) {
            Ok(counts) => format!("{} units, {} groups", counts.units, counts.groups),
            Err(refusal) => format!("refused {} at line {}", refusal.number, refusal.place),
        };
        table.add(vec![
            name.to_string(),
            text.len().to_string(),
            text.iter().filter(|&&byte| byte == 10).count().to_string(),
            answer,
            digits(times.of(PLANNER)),
            digits(times.of(BISECTION)),
            digits(times.ratio(PLANNER, BISECTION)),
            digits(times.of(PLANNER).map(|time| 1_000.0 * time / text.len() as f64)),
        ]);
        all.push(times);
    }
    (table, all)
}

/// A contender that reads a text, after its answer was compared.
fn contender<'a>(who: (&'static str, Read), text: &'a [u8]) -> Contender<'a> {
    let (name, read) = who;
    let (mut table, mut expected) = ([NONE; MOST_UNITS], [NONE; MOST_UNITS]);
    let answer = independent::read(text, &mut expected);
    same(name, "reading", read(text, &mut table), answer);
    same(name, "table filled", table, expected);
    Contender::whole(name, move || {
        let _ = black_box(read(black_box(text), &mut table));
    })
}
