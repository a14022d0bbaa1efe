//! Levelling one group: the level, the levelled shares and their figures, and the checks on lists of one group.

use super::{GREATEST_SHARE, GREATEST_TOTAL, MOST_UNITS, RUNNING, SHUT};
use danivomel::{Deviation, Levelled, Pairs, Refusal, Spread};

/// Levels a group and writes the shares to the plan; numbers past the members, and on a refusal all, keep their values.
pub fn level(lows: &[u64], highs: &[u64], marks: &[u64], total: u64, plan: &mut [u64]) -> Result<Levelled, Refusal> {
    check_shape(lows, highs, marks)?;
    if plan.len() < lows.len() {
        return Err(Refusal { number: 1, place: 0 });
    }
    check_numbers(lows, highs, marks)?;
    check_top(total, GREATEST_TOTAL)?;
    check_order(lows, highs, marks)?;
    if !has_shares(lows, highs, total) {
        return Err(Refusal { number: 11, place: 0 });
    }
    let level = fill_levelled(lows, highs, total, plan);
    let (deviation, spread, pairs) = figures(&plan[..lows.len()], marks, total);
    Ok(Levelled { level, deviation, spread, pairs })
}

/// Refusal 1: lists empty, of unequal length, or over 256.
pub fn check_shape(lows: &[u64], highs: &[u64], marks: &[u64]) -> Result<(), Refusal> {
    let n = lows.len();
    if n == 0 || n > MOST_UNITS || highs.len() != n || marks.len() != n {
        return Err(Refusal { number: 1, place: 0 });
    }
    Ok(())
}

/// Refusal 4 for the units in order: a low, a high or a mark beyond its range.
pub fn check_numbers(lows: &[u64], highs: &[u64], marks: &[u64]) -> Result<(), Refusal> {
    let beyond = |i: usize| lows[i] > GREATEST_SHARE || highs[i] > GREATEST_SHARE || marks[i] > SHUT;
    match (0..lows.len()).find(|&i| beyond(i)) {
        Some(i) => Err(Refusal { number: 4, place: i as u64 + 1 }),
        None => Ok(()),
    }
}

/// Refusal 4 for a total or a limit.
pub fn check_top(number: u64, greatest: u64) -> Result<(), Refusal> {
    if number > greatest {
        return Err(Refusal { number: 4, place: 0 });
    }
    Ok(())
}

/// Refusal 7 for the units in order: a low above its high, or a shut unit with another range than 0 to 0.
pub fn check_order(lows: &[u64], highs: &[u64], marks: &[u64]) -> Result<(), Refusal> {
    let wrong = |i: usize| lows[i] > highs[i] || (marks[i] == SHUT && highs[i] > 0);
    match (0..lows.len()).find(|&i| wrong(i)) {
        Some(i) => Err(Refusal { number: 7, place: i as u64 + 1 }),
        None => Ok(()),
    }
}

/// Whether some shares in the ranges add up to the total.
pub fn has_shares(lows: &[u64], highs: &[u64], total: u64) -> bool {
    lows.iter().sum::<u64>() <= total && total <= highs.iter().sum()
}

/// v moved into a range. (Written with min and max it takes three times as long.)
pub fn clamp(low: u64, high: u64, v: u64) -> u64 {
    if v < low {
        low
    } else if v > high {
        high
    } else {
        v
    }
}

/// T(v): the sum of v moved into each range.
pub fn total_at(lows: &[u64], highs: &[u64], v: u64) -> u64 {
    lows.iter().zip(highs).map(|(&low, &high)| clamp(low, high, v)).sum()
}

/// The last number from `first` to below `past` that holds, where `first` does and none does past one that does not, by
/// bisection; and how many numbers were asked about.
pub fn last_that_holds(first: u64, past: u64, holds: impl Fn(u64) -> bool) -> (u64, u32) {
    let (mut last, mut top, mut asked) = (first, past, 0);
    while top - last > 1 {
        let middle = (last + top) / 2;
        asked += 1;
        if holds(middle) {
            last = middle;
        } else {
            top = middle;
        }
    }
    (last, asked)
}

/// The greatest v from 0 to 1,000,000 with T(v) at most the total, where T(0) is.
pub fn level_of(lows: &[u64], highs: &[u64], total: u64) -> u64 {
    last_that_holds(0, GREATEST_SHARE + 1, |v| total_at(lows, highs, v) <= total).0
}

/// How often levelling a group that has shares adds up T(v): for the levels it tries, and for the copies left over.
pub fn additions(lows: &[u64], highs: &[u64], total: u64) -> u32 {
    last_that_holds(0, GREATEST_SHARE + 1, |v| total_at(lows, highs, v) <= total).1 + 1
}

/// Whether a member can take one of the copies left over at a level: its low is at most the level, and its high above
/// it.
pub fn grows(low: u64, high: u64, level: u64) -> bool {
    low <= level && level < high
}

/// Writes each member's levelled share to the plan, a shut one's 0 too, and answers the level. The copies left over go
/// one each to the growing members with the most high − level first, and among equals to the earlier.
pub fn fill_levelled(lows: &[u64], highs: &[u64], total: u64, plan: &mut [u64]) -> u64 {
    let level = level_of(lows, highs, total);
    let left = total - total_at(lows, highs, level);
    let unserved = first_unserved(lows, highs, level, left as usize, plan);
    for (member, (&low, &high)) in lows.iter().zip(highs).enumerate() {
        let more = grows(low, high, level) && turn_of(high - level, member) < unserved;
        plan[member] = clamp(low, high, level) + u64::from(more);
    }
    level
}

/// A number that is the less the earlier a member takes a copy: by its headroom, and among equals by its place.
fn turn_of(headroom: u64, member: usize) -> u64 {
    (GREATEST_SHARE - headroom) * MOST_UNITS as u64 + member as u64
}

/// The turn of the first growing member that gets none of so many copies; 0 where there are none. The room is for the
/// turns.
fn first_unserved(lows: &[u64], highs: &[u64], level: u64, left: usize, room: &mut [u64]) -> u64 {
    if left == 0 {
        return 0;
    }
    let mut growing = 0;
    for (member, (&low, &high)) in lows.iter().zip(highs).enumerate() {
        if grows(low, high, level) {
            room[growing] = turn_of(high - level, member);
            growing += 1;
        }
    }
    // more members grow than copies are left, since one level higher takes more than the total
    *room[..growing].select_nth_unstable(left).1
}

/// n of the figures: the number of members not shut.
pub fn count_running(marks: &[u64]) -> u64 {
    marks.iter().filter(|&&mark| mark == RUNNING).count() as u64
}

/// A running member's part of the deviation: |n × share − total|.
pub fn deviation_part(n: u64, share: u64, total: u64) -> u64 {
    (n * share).abs_diff(total)
}

/// The three figures of shares with the total: n counts the running members, and the sums are theirs alone.
pub fn figures(shares: &[u64], marks: &[u64], total: u64) -> (Deviation, Spread, Pairs) {
    let n = count_running(marks);
    let (mut deviation, mut squares) = (0, 0);
    let (mut running, mut count) = ([0; MOST_UNITS], 0);
    for (&share, &mark) in shares.iter().zip(marks) {
        if mark == RUNNING {
            deviation += deviation_part(n, share, total);
            squares += share * share;
            running[count] = share;
            count += 1;
        }
    }
    (Deviation(deviation), Spread(n * squares - total * total), pairs_of(&mut running[..count]))
}

/// The pair differences of running members' shares, which it sorts: each share is then the larger one in its pairs with
/// those before it.
pub fn pairs_of(running: &mut [u64]) -> Pairs {
    running.sort_unstable();
    let (mut pairs, mut before) = (0, 0);
    for (smaller, &share) in running.iter().enumerate() {
        pairs += smaller as u64 * share - before;
        before += share;
    }
    Pairs(pairs)
}
