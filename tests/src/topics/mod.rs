//! What is compared, a file for each topic. A topic takes the call that it tries, so that the independent planner
//! and the proved one go through the same cases.

pub mod additions;
pub mod ailments;
pub mod calls;
pub mod command;
pub mod faults;
pub mod handed;
pub mod headroom;
pub mod installed;
pub mod judge;
pub mod level;
pub mod lines;
pub mod linked;
pub mod lists;
pub mod marks;
pub mod narrow;
pub mod pairs;
pub mod program;
pub mod read;
pub mod report;
pub mod settle;
pub mod shut;
pub mod sources;
pub mod tables;
pub mod transcripts;
pub mod ways;
pub mod write;

use danivomel::Range;

/// A value that no call writes, to see that a number kept its value.
pub fn filler(index: usize) -> u64 {
    u64::MAX - 1_000 - index as u64
}

/// A list of such values.
pub fn fillers(length: usize) -> Vec<u64> {
    (0..length).map(filler).collect()
}

/// A table of such values.
pub fn filler_table(length: usize) -> Vec<Range> {
    (0..length).map(|unit| Range { low: filler(2 * unit), high: filler(2 * unit + 1) }).collect()
}

/// A table of ranges that are given as pairs.
pub fn table_of(pairs: &[(u64, u64)]) -> Vec<Range> {
    pairs.iter().map(|&(low, high)| Range { low, high }).collect()
}

/// The same with two entries past the units.
pub fn with_spare(pairs: &[(u64, u64)]) -> Vec<Range> {
    let mut table = filler_table(pairs.len() + 2);
    table[..pairs.len()].copy_from_slice(&table_of(pairs));
    table
}

/// The ranges of a table as pairs.
pub fn pairs_of(table: &[Range]) -> Vec<(u64, u64)> {
    table.iter().map(|range| (range.low, range.high)).collect()
}
