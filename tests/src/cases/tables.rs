//! Random tables that are lent for a job: ranges of four kinds, 0 to 0 for shut units, some of them faulty, for more or
//! fewer than its units.

use super::jobs::{other_table, print_job};
use crate::calls;
use crate::independent::reader::Job;
use crate::independent::{self, GREATEST_SHARE, SCRATCH_PER_UNIT, SHUT};
use crate::random::Random;
use danivomel::Range;

/// A table with a range for each unit: those of the unit lines, those that settling leaves, others near them, or any.
pub fn ranges(random: &mut Random, job: &Job) -> Vec<Range> {
    let mut table = calls::table(&job.lows, &job.highs);
    match random.between(0, 3) {
        0 => {}
        1 => {
            // a job without a plan keeps the ranges of its unit lines
            let mut scratch = vec![0; SCRATCH_PER_UNIT * table.len()];
            let _ = independent::settle(&print_job(job), &mut table, &mut scratch);
        }
        2 => {
            let (lows, highs) = other_table(random, job);
            table = calls::table(&lows, &highs);
        }
        _ => {
            for (range, _) in table.iter_mut().zip(&job.marks).filter(|(_, &mark)| mark != SHUT) {
                *range = any_range(random);
            }
        }
    }
    table
}

/// Any range, with numbers of one to seven digits.
fn any_range(random: &mut Random) -> Range {
    let mut number = || {
        let most = 10u64.pow(random.between(0, 6) as u32);
        random.between(0, most)
    };
    let (first, second) = (number(), number());
    Range { low: first.min(second), high: first.max(second) }
}

/// Such a table, now and then with faulty ranges, too short, or with entries past the units that no unit could have.
pub fn lent(random: &mut Random, job: &Job) -> Vec<Range> {
    let mut table = ranges(random, job);
    let units = table.len();
    for _ in 0..random.one_of(&[0, 0, 0, 1, 2]) {
        let unit = random.index(units);
        match job.marks[unit] {
            SHUT if random.once_in(2) => table[unit] = any_range(random),
            _ => spoil(random, &mut table[unit]),
        }
    }
    match random.between(0, 7) {
        0 => table.truncate(random.index(units)),
        1..=3 => table.resize(units + random.one_of(&[1, 2, 300]), Range { low: u64::MAX, high: GREATEST_SHARE + 1 }),
        _ => {}
    }
    table
}

/// Puts a number beyond its range into a range, or a low above its high, or both.
fn spoil(random: &mut Random, range: &mut Range) {
    match random.between(0, 5) {
        0 => range.low = GREATEST_SHARE + 1,
        1 => range.high = GREATEST_SHARE + 1,
        2 => range.high = u64::MAX,
        3 => *range = Range { low: u64::MAX, high: 0 },
        4 => *range = Range { low: range.high.max(1), high: 0 },
        _ => range.low = range.high.saturating_add(1),
    }
}
