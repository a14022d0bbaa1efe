//! A group's breakpoint table: bounds of its members in order, each with the sums of the shares levelled there. Between two of
//! them every member either keeps its share or moves with the level. Rows do not depend on the total.

use super::apart::{self, Apart};

/// A bound, T and the sum of squares of the shares where every member takes it moved into its range, and how many members
/// grow from there on.
#[derive(Clone, Copy, Default)]
pub struct Row {
    pub level: u64,
    pub total: u64,
    pub squares: u64,
    pub growing: u64,
}

/// Room for the sorted bounds of N members and their R rows, which are at most 2 N + 1.
pub struct Room<const N: usize, const R: usize> {
    starts: [u64; N],
    stops: [u64; N],
    rows: [Row; R],
}

impl<const N: usize, const R: usize> Room<N, R> {
    pub fn new() -> Room<N, R> {
        Room { starts: [0; N], stops: [0; N], rows: [Row::default(); R] }
    }

    /// The rows of a group, rising: one for level 0 and one for each bound of the members with several values. Where there is
    /// room for how far apart the shares are, single values have their rows too, and that is written down as well.
    pub fn rows(&mut self, lows: &[u64], highs: &[u64], apart: &mut [Apart]) -> &[Row] {
        let count = if apart.is_empty() { self.gather(lows, highs) } else { self.gather_all(lows, highs) };
        let (starts, stops) = (&mut self.starts[..count], &mut self.stops[..count]);
        starts.sort_unstable();
        stops.sort_unstable();
        let first = Row { total: lows.iter().sum(), squares: lows.iter().map(|low| low * low).sum(), ..Row::default() };
        let rows = &mut self.rows[..2 * count + 1];
        fill(first, starts, stops, rows);
        if !apart.is_empty() {
            apart::fill(rows, starts, apart);
        }
        rows
    }

    /// Writes down the bounds of the members with several values, and answers how many these are.
    fn gather(&mut self, lows: &[u64], highs: &[u64]) -> usize {
        let mut count = 0;
        for (&low, &high) in lows.iter().zip(highs) {
            (self.starts[count], self.stops[count]) = (low, high);
            count += usize::from(low < high);
        }
        count
    }

    /// Writes down all bounds, and answers how many members these are.
    fn gather_all(&mut self, lows: &[u64], highs: &[u64]) -> usize {
        self.starts[..lows.len()].copy_from_slice(lows);
        self.stops[..highs.len()].copy_from_slice(highs);
        lows.len()
    }
}

/// Writes the rows of sorted bounds, each made from the one before.
#[inline(always)]
fn fill(mut row: Row, starts: &[u64], stops: &[u64], rows: &mut [Row]) {
    rows[0] = row;
    let (mut started, mut stopped) = (0, 0);
    for next in &mut rows[1..] {
        let low_first = started < starts.len() && starts[started] <= stops[stopped];
        let level = if low_first { starts[started] } else { stops[stopped] };
        let more = row.growing * (level - row.level);
        row.total += more;
        row.squares += more * (row.level + level);
        row.level = level;
        if low_first {
            row.growing += 1;
            started += 1;
        } else {
            row.growing -= 1;
            stopped += 1;
        }
        *next = row;
    }
}
