//! How far apart a group's shares are: the pairs of a pinned group, from the rows of all bounds.

use super::probe::{Table, Trial};
use super::rows::Row;
use danivomel_tests::independent::level::clamp;

/// For a row, the pairs of the shares at its level, and the sum of their distances from the level.
#[derive(Clone, Copy, Default)]
pub struct Apart {
    pairs: u64,
    distances: u64,
}

/// Writes down how far apart the shares are at each row. A level one further is nearer to the shares whose low is not passed and
/// farther from those whose high is: for n members and k bounds passed, as at row k, that takes n − k off the distances (or adds
/// k − n), and as much off the pairs for each member that grows.
pub fn fill(rows: &[Row], lows: &[u64], apart: &mut [Apart]) {
    let n = lows.len() as u64;
    let mut at = Apart { pairs: sorted_pairs(lows), distances: rows[0].total };
    apart[0] = at;
    for (passed, two) in rows.windows(2).enumerate() {
        let (more, step) = (two[1].total - two[0].total, two[1].level - two[0].level);
        at.pairs = at.pairs + passed as u64 * more - n * more;
        at.distances = at.distances + passed as u64 * step - n * step;
        apart[passed + 1] = at;
    }
}

/// The pairs of shares that are in order.
fn sorted_pairs(shares: &[u64]) -> u64 {
    let (mut pairs, mut before) = (0, 0);
    for (rank, share) in shares.iter().enumerate() {
        pairs += rank as u64 * share - before;
        before += share;
    }
    pairs
}

impl Table<'_> {
    /// The pairs of the pinned group's levelled shares, whose level with copies left over is above a row; and the row found for
    /// the value. The group's pairs at the level lose those of the member's own share and get those of the value. A copy left over
    /// then takes its member away from the shares at or below the level and nearer to those above. Not inlined, so that trials
    /// stay small where pairs are not limited.
    #[inline(never)]
    pub fn pairs(&self, trial: Trial, row: usize, level: u64, left: u64) -> (u64, usize) {
        let Trial { low, high, value } = trial;
        let n = self.terms.n;
        let own = clamp(low, high, level);
        let total = self.total_at(row, level);
        let beside = self.last_below(value, level, row);
        let from_value = self.distances_at(beside, value) + self.total_at(beside, value).abs_diff(total);
        let mut from_own = self.distances_at(row, level);
        if own != level {
            let beside = self.last_below(own, level, row);
            from_own = self.distances_at(beside, own) + self.total_at(beside, own).abs_diff(total);
        }
        let more = total - self.rows[row].total;
        let group = self.apart[row].pairs + row as u64 * more - n * more;
        let pinned = group + from_value - from_own - own.abs_diff(value);
        let above = n - self.lows_passed(row) + u64::from(level < value) - u64::from(level < own);
        (pinned + left * (n - left) - 2 * left * above, beside)
    }

    /// T at a level from a row on and below the next.
    #[inline(always)]
    fn total_at(&self, row: usize, level: u64) -> u64 {
        let row = &self.rows[row];
        row.total + row.growing * (level - row.level)
    }

    /// The sum of the distances from such a level of the shares there.
    #[inline(always)]
    fn distances_at(&self, row: usize, level: u64) -> u64 {
        let step = level - self.rows[row].level;
        self.apart[row].distances + row as u64 * step - self.terms.n * step
    }

    /// How many lows are at or below a row's level: of the bounds passed, as many more than highs as members grow.
    #[inline(always)]
    pub fn lows_passed(&self, row: usize) -> u64 {
        (row as u64 + self.rows[row].growing) / 2
    }

    /// How many highs are at or below a row's level.
    #[inline(always)]
    pub fn highs_passed(&self, row: usize) -> u64 {
        (row as u64 - self.rows[row].growing) / 2
    }

    /// The last row at or below a value, where this is the last one at or below a level.
    #[inline(always)]
    fn last_below(&self, value: u64, level: u64, row: usize) -> usize {
        let (mut row, mut top) = if level < value { (row, self.rows.len()) } else { (0, row + 1) };
        while top - row > 1 {
            let middle = (row + top) / 2;
            if self.rows[middle].level <= value {
                row = middle;
            } else {
                top = middle;
            }
        }
        row
    }
}
