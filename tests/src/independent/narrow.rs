//! Narrowing one group under its limits: each end is looked for by levelling the group with one member pinned.

use super::level::{
    check_numbers, check_order, check_shape, check_top, clamp, count_running, deviation_part, grows, has_shares,
    level_of, pairs_of, total_at,
};
use super::{GREATEST_DEVIATION, GREATEST_PAIRS, GREATEST_SPREAD, GREATEST_TOTAL, MOST_UNITS, RUNNING};
use crate::calls::met;
use danivomel::{Deviation, Limit, Limits, Refusal, Spread};

/// What a group asks of its members' ranges: a mark for each of them, the total and the limits.
#[derive(Clone, Copy, Debug)]
pub struct Terms<'a> {
    pub marks: &'a [u64],
    pub total: u64,
    pub limits: Limits,
}

/// Narrows the ranges to the values that some plan takes; on a refusal they are as they were.
pub fn narrow(lows: &mut [u64], highs: &mut [u64], marks: &[u64], total: u64, limits: Limits) -> Result<(), Refusal> {
    let terms = Terms { marks, total, limits };
    check_lists(lows, highs, terms)?;
    narrow_members(lows, highs, terms).map_err(|number| Refusal { number, place: 0 })
}

/// Refusals 1, 4 and 7 for the lists, the total and the limits.
pub fn check_lists(lows: &[u64], highs: &[u64], terms: Terms) -> Result<(), Refusal> {
    check_shape(lows, highs, terms.marks)?;
    check_numbers(lows, highs, terms.marks)?;
    check_top(terms.total, GREATEST_TOTAL)?;
    check_limit(terms.limits.deviation, GREATEST_DEVIATION)?;
    check_limit(terms.limits.spread, GREATEST_SPREAD)?;
    check_limit(terms.limits.pairs, GREATEST_PAIRS)?;
    check_order(lows, highs, terms.marks)
}

/// Refusal 4 for a limit.
fn check_limit(limit: Limit, greatest: u64) -> Result<(), Refusal> {
    match limit {
        Limit::Any => Ok(()),
        Limit::AtMost(most) => check_top(most, greatest),
    }
}

/// Narrows ranges that were checked; answers 11 or 12 where there is no plan, and then changes nothing.
pub fn narrow_members(lows: &mut [u64], highs: &mut [u64], terms: Terms) -> Result<(), u64> {
    if !has_shares(lows, highs, terms.total) {
        return Err(11);
    }
    if !limits_met(lows, highs, terms) {
        return Err(12);
    }
    let mut plan = [0; MOST_UNITS];
    each_even(lows, highs, terms.total, |member, share| plan[member] = share);
    for member in 0..lows.len() {
        lows[member] = least_taken(lows, highs, terms, member, plan[member]);
        highs[member] = greatest_taken(lows, highs, terms, member, plan[member]);
    }
    Ok(())
}

/// Gives each member's share in order, as even as the levelled ones: the copies left over go to the first growing
/// members, without asking for headroom, since every way to hand them out has the same figures.
fn each_even(lows: &[u64], highs: &[u64], total: u64, mut give: impl FnMut(usize, u64)) {
    let level = level_of(lows, highs, total);
    let mut left = total - total_at(lows, highs, level);
    for (member, (&low, &high)) in lows.iter().zip(highs).enumerate() {
        let more = u64::from(left > 0 && grows(low, high, level));
        give(member, clamp(low, high, level) + more);
        left -= more;
    }
}

/// Whether the most even shares are within the limits, by the figures of the running members.
fn limits_met(lows: &[u64], highs: &[u64], terms: Terms) -> bool {
    let Terms { marks, total, limits } = terms;
    let n = count_running(marks);
    let mut deviation = 0;
    let mut squares = 0;
    // the limit any takes every figure, so that the shares need not be sorted for it
    let asks_pairs = limits.pairs != Limit::Any;
    let mut running = Vec::with_capacity(if asks_pairs { n as usize } else { 0 });
    each_even(lows, highs, total, |member, share| {
        if marks[member] == RUNNING {
            deviation += deviation_part(n, share, total);
            squares += share * share;
            if asks_pairs {
                running.push(share);
            }
        }
    });
    met(limits, Deviation(deviation), Spread(n * squares - total * total), pairs_of(&mut running))
}

/// Whether some plan gives the member this value.
pub fn taken(lows: &mut [u64], highs: &mut [u64], terms: Terms, member: usize, value: u64) -> bool {
    let (low, high) = (lows[member], highs[member]);
    lows[member] = value;
    highs[member] = value;
    let found = has_shares(lows, highs, terms.total) && limits_met(lows, highs, terms);
    lows[member] = low;
    highs[member] = high;
    found
}

/// The member's least value that some plan takes, where this share is such a value.
fn least_taken(lows: &mut [u64], highs: &mut [u64], terms: Terms, member: usize, share: u64) -> u64 {
    let mut untaken = lows[member];
    if taken(lows, highs, terms, member, untaken) {
        return untaken;
    }
    let mut found = share;
    while found - untaken > 1 {
        let middle = (untaken + found) / 2;
        if taken(lows, highs, terms, member, middle) {
            found = middle;
        } else {
            untaken = middle;
        }
    }
    found
}

/// The member's greatest value that some plan takes, where this share is such a value.
fn greatest_taken(lows: &mut [u64], highs: &mut [u64], terms: Terms, member: usize, share: u64) -> u64 {
    let mut untaken = highs[member];
    if taken(lows, highs, terms, member, untaken) {
        return untaken;
    }
    let mut found = share;
    while untaken - found > 1 {
        let middle = (untaken + found) / 2;
        if taken(lows, highs, terms, member, middle) {
            found = middle;
        } else {
            untaken = middle;
        }
    }
    found
}
