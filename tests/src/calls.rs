//! The calls that a planner has, as topics take them, and what the tests need over their types.

use danivomel::{Counts, Deviation, Levelled, Limit, Limits, Pairs, Range, Refusal, Reported, Spread, Unsettled};

/// Levels one group: lows, highs, marks, total, and the list that the shares are written to.
pub type Level = fn(&[u64], &[u64], &[u64], u64, &mut [u64]) -> Result<Levelled, Refusal>;

/// Narrows one group in place: lows, highs, marks, total, limits.
pub type Narrow = fn(&mut [u64], &mut [u64], &[u64], u64, Limits) -> Result<(), Refusal>;

/// Reads a job text into a table.
pub type Read = fn(&[u8], &mut [Range]) -> Result<Counts, Refusal>;

/// Settles the table under the groups of a job text, with a scratch list; answers the passes.
pub type Settle = fn(&[u8], &mut [Range], &mut [u64]) -> Result<u64, Unsettled>;

/// Settles likewise and writes the report into a buffer; answers the report's length and the passes.
pub type Report = fn(&[u8], &mut [Range], &mut [u64], &mut [u8]) -> Result<Reported, Unsettled>;

/// Writes the job of a text with the ranges of a table into a buffer; answers the length of what is written.
pub type Write = fn(&[u8], &[Range], &mut [u8]) -> Result<usize, Refusal>;

/// The calls of a planner on a job text.
#[derive(Clone, Copy)]
pub struct OnTexts {
    pub read: Read,
    pub settle: Settle,
    pub report: Report,
    pub write: Write,
}

/// Whether the three figures are within the limits.
pub fn met(limits: Limits, deviation: Deviation, spread: Spread, pairs: Pairs) -> bool {
    allows(limits.deviation, deviation.0) && allows(limits.spread, spread.0) && allows(limits.pairs, pairs.0)
}

/// Whether a limit allows a figure.
fn allows(limit: Limit, figure: u64) -> bool {
    match limit {
        Limit::Any => true,
        Limit::AtMost(most) => figure <= most,
    }
}

/// The table with these lows and highs.
pub fn table(lows: &[u64], highs: &[u64]) -> Vec<Range> {
    lows.iter().zip(highs).map(|(&low, &high)| Range { low, high }).collect()
}

/// The lows and the highs of a table.
pub fn lists(table: &[Range]) -> (Vec<u64>, Vec<u64>) {
    table.iter().map(|range| (range.low, range.high)).unzip()
}
