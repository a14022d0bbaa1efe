//! Trials of values on a group's rows: the figures of the levelled shares with one member pinned, in the form in which they are
//! compared.

use super::apart::Apart;
use super::rows::Row;
use danivomel::{Limit, Limits};
use danivomel_tests::independent::level::clamp;

/// What trials compare with: the group's numbers, the most that may lie above the mean, which is half of a deviation, the
/// greatest sum of squares, the most pairs, and the sums of n × low − S over the members where that is positive and of S − n × high likewise.
#[derive(Clone, Copy)]
pub struct Terms {
    pub n: u64,
    pub total: u64,
    pub lows: u64,
    pub highs: u64,
    pub half: u64,
    pub squares: u64,
    pub pairs: u64,
    above: u64,
    below: u64,
}

impl Terms {
    pub fn of(lows: &[u64], highs: &[u64], total: u64, limits: Limits) -> Terms {
        let n = lows.len() as u64;
        let half = match limits.deviation {
            Limit::Any => u64::MAX,
            Limit::AtMost(most) => most / 2,
        };
        let squares = match limits.spread {
            Limit::Any => u64::MAX,
            Limit::AtMost(most) => (most + total * total) / n,
        };
        let pairs = match limits.pairs {
            Limit::Any => u64::MAX,
            Limit::AtMost(most) => most,
        };
        Terms {
            n,
            total,
            lows: lows.iter().sum(),
            highs: highs.iter().sum(),
            half,
            squares,
            pairs,
            above: lows.iter().map(|low| (n * low).saturating_sub(total)).sum(),
            below: highs.iter().map(|high| total.saturating_sub(n * high)).sum(),
        }
    }
}

/// A value to try for a member with this range. A member with the range 0 to 0 and the value 0 changes no sum: the group.
#[derive(Clone, Copy, Default)]
pub struct Trial {
    pub low: u64,
    pub high: u64,
    pub value: u64,
}

/// What a look finds: half of the deviation, the sum of squares, the level of the others with the copies left over, and pairs
/// where they are asked for, else 0, with the row found for the value.
#[derive(Clone, Copy)]
pub struct Found {
    pub half: u64,
    pub squares: u64,
    pub level: u64,
    pub left: u64,
    pub pairs: u64,
    pub beside: usize,
}

/// A group's rows with what its trials compare with; how far apart the shares are where pairs are limited, else nothing.
pub struct Table<'a> {
    pub rows: &'a [Row],
    pub apart: &'a [Apart],
    pub terms: Terms,
}

impl Table<'_> {
    /// The last row at which the others have no more than the member's value leaves them, searched from near on.
    #[inline(always)]
    pub fn row_of(&self, trial: Trial, near: usize) -> usize {
        let (mut row, mut top, mut step) = (0, self.rows.len(), 1);
        while top - row > 1 {
            let middle = match top - row {
                gap if gap <= step => row + gap / 2,
                _ if near <= row => row + step,
                _ if top <= near => top - step,
                _ => near,
            };
            step *= 2;
            let at = &self.rows[middle];
            if at.total + trial.value - clamp(trial.low, trial.high, at.level) <= self.terms.total {
                row = middle;
            } else {
                top = middle;
            }
        }
        row
    }

    /// The pinned group's levelled shares, from the row below their level. The growing members share the copies that the
    /// row leaves: each gets so many, and some of them one more. Pairs take longest, and are asked for where the other two limits
    /// are met.
    #[inline(always)]
    pub fn look(&self, trial: Trial, index: usize) -> Found {
        let Trial { low, high, value } = trial;
        let row = &self.rows[index];
        let own = clamp(low, high, row.level);
        let copies = self.terms.total + own - value - row.total;
        let (mut each, mut left) = (0, 0);
        if copies > 0 {
            let growing = row.growing - u64::from(low <= row.level && row.level < high);
            (each, left) = (copies / growing, copies % growing);
        }
        let squares = row.squares + value * value - own * own + copies * (2 * row.level + each) + left * (each + 1);
        let level = row.level + each;
        let mut found = Found { half: self.half(trial, level, left), squares, level, left, pairs: 0, beside: 0 };
        if !self.apart.is_empty() && self.allows(found) {
            (found.pairs, found.beside) = self.pairs(trial, index, level, left);
        }
        found
    }

    /// Half of the deviation: its part below the mean, where only members at their highs are, or above it, where only those at
    /// their lows are and those with a copy left over.
    #[inline(always)]
    fn half(&self, trial: Trial, level: u64, left: u64) -> u64 {
        let Terms { n, total, above, below, .. } = self.terms;
        let part = |share: u64| (n * share).saturating_sub(total);
        let short = |share: u64| total.saturating_sub(n * share);
        if total <= n * level {
            return below + short(trial.value) - short(trial.high);
        }
        above + part(trial.value) - part(trial.low) + left * part(level + 1)
    }

    /// Whether the limits allow what was found.
    #[inline(always)]
    pub fn allows(&self, found: Found) -> bool {
        found.squares <= self.terms.squares && found.half <= self.terms.half && found.pairs <= self.terms.pairs
    }
}
