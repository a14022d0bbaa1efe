//! The third limit: narrowing groups with a pairs limit beside the same groups without it, and what Gecode leaves of them.

use super::filtering::{count, left, narrowed};
use super::narrow::Asked;
use super::values;
use crate::gecode::Form;
use crate::jobs::{paired_group, paired_groups_of, Tightness, COMMON, SEED, SIZES};
use crate::plain;
use crate::planners::{BISECTION, GECODE, GECODE_ALONE, GECODE_BY_PAIR, GECODE_BY_PAIR_ALONE, NARROWS};
use crate::planners::{PLANNER, ROWS, ROWS_WITHOUT, WITHOUT};
use crate::table::{digits, percent, Table};
use crate::timing::{in_turn, Contender, Times};
use danivomel::Limit;
use danivomel_tests::cases::groups::GroupCase;
use danivomel_tests::random::Random;
use Tightness::{Loose, Tight};

/// What was timed: the members, the other two limits and that of the pairs, and the times.
pub struct Timed {
    pub n: usize,
    pub tightness: Tightness,
    pub pairs: Tightness,
    pub times: Times,
}

/// The columns of the table.
const HEAD: [&str; 17] = [
    "members",
    "other limits",
    "pairs limit",
    "call",
    "planner, µs",
    "planner, without the pairs limit, µs",
    "with / without",
    "plain Rust, rows, µs",
    "plain Rust, rows, with / without",
    "planner / plain Rust, same way",
    "plain Rust, bisection, µs",
    "Gecode, µs",
    "Gecode, propagation alone, µs",
    "planner / Gecode, propagation alone",
    "Gecode, pair by pair, µs",
    "Gecode, pair by pair, propagation alone, µs",
    "planner / Gecode, pair by pair, propagation alone",
];

/// Times narrowing with and without a pairs limit.
pub fn run() -> (Table, Vec<Timed>) {
    let mut table = Table::new("pairs", &HEAD);
    let mut all = vec![];
    for n in SIZES {
        for (tightness, pairs, first) in KINDS {
            let times = measure(paired_groups_of(n, COMMON, tightness, pairs), first);
            table.add(row(n, (tightness, pairs), first, &times));
            all.push(Timed { n, tightness, pairs, times });
        }
    }
    (table, all)
}

/// The kinds of calls: all limits alike, and limits of which that of the pairs takes most away.
const KINDS: [(Tightness, Tightness, bool); 6] = [
    (Loose, Loose, true),
    (Loose, Loose, false),
    (Tight, Tight, true),
    (Tight, Tight, false),
    (Loose, Tight, true),
    (Loose, Tight, false),
];

/// Times all contenders on groups of one size.
fn measure(groups: Vec<GroupCase>, first: bool) -> Times {
    let free = groups.iter().map(|case| case.clone().under_pairs(Limit::Any)).collect();
    let (paired, free) = (Asked::of(groups, first), Asked::of(free, first));
    let mut contenders: Vec<Contender> = NARROWS.iter().map(|who| paired.contender(*who)).collect();
    contenders.push(free.contender((ROWS_WITHOUT, plain::narrow)));
    contenders.push(free.contender((WITHOUT, danivomel::narrow)));
    contenders.extend(paired.gecode(Form::Centred));
    contenders.extend(paired.gecode(Form::ByPair));
    in_turn(contenders, paired.groups.len())
}

/// The cells of one kind of call.
fn row(n: usize, (tightness, pairs): (Tightness, Tightness), first: bool, times: &Times) -> Vec<String> {
    vec![
        n.to_string(),
        format!("{tightness:?}").to_lowercase(),
        format!("{pairs:?}").to_lowercase(),
        if first { "first" } else { "quiet" }.to_string(),
        digits(times.of(PLANNER)),
        digits(times.of(WITHOUT)),
        digits(times.ratio(PLANNER, WITHOUT)),
        digits(times.of(ROWS)),
        digits(times.ratio(ROWS, ROWS_WITHOUT)),
        digits(times.ratio(PLANNER, ROWS)),
        digits(times.of(BISECTION)),
        digits(times.of(GECODE)),
        digits(times.of(GECODE_ALONE)),
        digits(times.ratio(PLANNER, GECODE_ALONE)),
        digits(times.of(GECODE_BY_PAIR)),
        digits(times.of(GECODE_BY_PAIR_ALONE)),
        digits(times.ratio(PLANNER, GECODE_BY_PAIR_ALONE)),
    ]
}

/// The columns of the table of values left.
const HEAD_LEFT: [&str; 9] = [
    "members",
    "limits",
    "groups",
    "values",
    "taken by plans",
    "left too many, in order",
    "of those to go",
    "left too many, pair by pair",
    "of those to go, pair by pair",
];

/// Values that Gecode leaves and no plan takes, where the limits are tight: all three, and that of the pairs alone.
pub fn run_left() -> Table {
    let mut table = Table::new("pairs_left", &HEAD_LEFT);
    for n in SIZES {
        for alone in [false, true] {
            let [start, taken, ordered, by_pair] = values_left(n, alone);
            table.add(vec![
                n.to_string(),
                if alone { "pairs alone" } else { "all three" }.to_string(),
                count(n).to_string(),
                start.to_string(),
                taken.to_string(),
                (ordered - taken).to_string(),
                percent(ordered - taken, start - taken),
                (by_pair - taken).to_string(),
                percent(by_pair - taken, start - taken),
            ]);
        }
    }
    table
}

/// The values at the start, those that plans take, and those that Gecode leaves in either form, over some groups of one size.
fn values_left(n: usize, alone: bool) -> [u64; 4] {
    let mut random = Random::new(SEED + 30_000 + n as u64);
    let mut sums = [0; 4];
    for _ in 0..count(n) {
        let mut case = paired_group(&mut random, n, COMMON, Tight, Tight);
        if alone {
            case = case.under(Limit::Any, Limit::Any);
        }
        let taken = narrowed(&case);
        sums[0] += values(&case.lows, &case.highs);
        sums[1] += values(&taken.lows, &taken.highs);
        sums[2] += left(&case, &taken, Form::Centred);
        sums[3] += left(&case, &taken, Form::ByPair);
    }
    sums
}
