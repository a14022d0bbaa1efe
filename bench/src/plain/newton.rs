//! Newton's steps: how many values inward a limit can be met at the soonest.

use super::probe::{Found, Table, Trial};

impl Table<'_> {
    /// The step of a value that the limits do not allow. A value nearer takes at most n off the half, and twice its distance
    /// from the others' level off the squares. Pairs are known only where the limits of these are met.
    #[inline(always)]
    pub fn step(&self, trial: Trial, row: usize, found: Found) -> u64 {
        if self.terms.pairs < found.pairs {
            return self.step_by_pairs(trial, row, found);
        }
        let by_half = steps(found.half.saturating_sub(self.terms.half), self.terms.n);
        let each = 2 * trial.value.abs_diff(found.level).max(1);
        by_half.max(steps(found.squares.saturating_sub(self.terms.squares), each))
    }

    /// The step where pairs are too many. A value nearer takes 2 off, and 2 more for each other member strictly between it and
    /// the member that gets the copy, or gives one. Those at their lows, or highs, stay where they are for a while. Those that
    /// grow come between one by one as they get a copy, or give one, until all have done so and a new turn begins.
    #[inline(never)]
    fn step_by_pairs(&self, trial: Trial, row: usize, found: Found) -> u64 {
        let Trial { low, high, value } = trial;
        let (at, level, left) = (&self.rows[row], found.level, found.left);
        let growing = (at.growing - u64::from(low <= at.level && at.level < high)).max(1);
        let (between, turned) = if level < value {
            let lows = self.lows_passed(found.beside) - self.lows_passed(row);
            (lows - u64::from(level < low), left)
        } else {
            let highs = self.highs_passed(row) - self.highs_passed(found.beside);
            (highs - u64::from(value < high && high <= level), (growing - left) % growing)
        };
        turns(2 * between + 1, growing, turned, found.pairs - self.terms.pairs)
    }
}

/// How many steps take so much off, where each takes off at most so much.
#[inline(always)]
fn steps(much: u64, each: u64) -> u64 {
    if much == 0 {
        return 0;
    }
    (much - 1) / each + 1
}

/// How many steps take so much off, where they go in turns of so many: the first of a turn takes off one more than `least`, each
/// further one two more than the one before, and some steps of the first turn are done.
fn turns(least: u64, steps: u64, done: u64, much: u64) -> u64 {
    let (rest, next) = (steps - done, least + 2 * done);
    let in_first = rest * (next + rest);
    if much <= in_first {
        return steps_of_turn(next, rest, much);
    }
    let (much, in_turn) = (much - in_first, steps * (least + steps));
    rest + much / in_turn * steps + steps_of_turn(least, steps, much % in_turn)
}

/// The fewest steps s of one turn with s × (least + s) at least so much, where `most` are enough: two of Newton's steps from
/// above, and from there a number that is not too large. It may be a little too small.
fn steps_of_turn(least: u64, most: u64, much: u64) -> u64 {
    let mut steps = most;
    for _ in 0..2 {
        steps = (steps * steps + much) / (least + 2 * steps);
    }
    much.div_ceil(least + steps)
}
