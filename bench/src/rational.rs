//! Document 001's filtering of DEVIATION (sections 2, 4 and 5), where shares may be fractions while it filters. All
//! quantities are n times those of the paper, so that the mean becomes the total; those that are compared with half of
//! the limit are doubled.

/// The four sums of definition 2 over some members, each doubled.
#[derive(Clone, Copy, Default)]
struct Sums {
    most_right: i64,
    most_left: i64,
    least_right: i64,
    least_left: i64,
}

impl Sums {
    /// One member's part.
    fn of(n: i64, total: i64, low: u64, high: u64) -> Sums {
        let (below, above) = (2 * (n * low as i64 - total), 2 * (n * high as i64 - total));
        Sums {
            most_right: above.max(0),
            most_left: (-below).max(0),
            least_right: below.max(0),
            least_left: (-above).max(0),
        }
    }

    /// These with another member's part.
    fn plus(self, other: Sums) -> Sums {
        Sums {
            most_right: self.most_right + other.most_right,
            most_left: self.most_left + other.most_left,
            least_right: self.least_right + other.least_right,
            least_left: self.least_left + other.least_left,
        }
    }

    /// The sums over all members.
    fn over(lows: &[u64], highs: &[u64], total: i64) -> Sums {
        let n = lows.len() as i64;
        lows.iter().zip(highs).fold(Sums::default(), |sums, (&low, &high)| sums.plus(Sums::of(n, total, low, high)))
    }

    /// Conditions 1, 2 and 5 of theorem 2; with theorem 4, 1 and 2 say that the least deviation is within the limit.
    fn consistent(self, limit: i64) -> bool {
        self.least_right <= limit
            && self.least_left <= limit
            && self.least_left <= self.most_right
            && self.least_right <= self.most_left
    }
}

/// Filters each member once by rule 3; whether the constraint is not found inconsistent.
pub fn filter_once(lows: &mut [u64], highs: &mut [u64], total: u64, limit: u64) -> bool {
    let (n, total, limit) = (lows.len() as i64, total as i64, limit as i64);
    let all = Sums::over(lows, highs, total);
    if !all.consistent(limit) {
        return false;
    }
    for (low, high) in lows.iter_mut().zip(highs.iter_mut()) {
        let own = Sums::of(n, total, *low, *high);
        let right = limit.min(all.most_left - own.most_left) - (all.least_right - own.least_right);
        let left = limit.min(all.most_right - own.most_right) - (all.least_left - own.least_left);
        // 2 * (n * share - total) is from -left to right
        let greatest = (2 * total + right).div_euclid(2 * n);
        let least = -(left - 2 * total).div_euclid(2 * n);
        if greatest < *low as i64 || (*high as i64) < least || greatest < least {
            return false;
        }
        *low = (*low).max(least.max(0) as u64);
        *high = (*high).min(greatest as u64);
    }
    Sums::over(lows, highs, total).consistent(limit)
}

/// Filters until nothing changes; whether the constraint is not found inconsistent.
pub fn filter_on(lows: &mut [u64], highs: &mut [u64], total: u64, limit: u64) -> bool {
    loop {
        let width = widths(lows, highs);
        if !filter_once(lows, highs, total, limit) {
            return false;
        }
        if widths(lows, highs) == width {
            return true;
        }
    }
}

/// The sum of high - low.
fn widths(lows: &[u64], highs: &[u64]) -> u64 {
    lows.iter().zip(highs).map(|(low, high)| high - low).sum()
}
