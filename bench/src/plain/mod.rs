//! Narrowing in plain Rust the way that the proved planner goes, by rows; same answers as the independent planner, which
//! walks the group at each step. And settling with it.

mod apart;
mod ends;
mod newton;
mod probe;
mod rows;

use apart::Apart;
use danivomel::{Limit, Limits, Range, Refusal, Unsettled};
use danivomel_tests::independent::level::{clamp, has_shares};
use danivomel_tests::independent::narrow::{check_lists, Terms};
use danivomel_tests::independent::settle::settle_job;
use danivomel_tests::independent::{MOST_UNITS, RUNNING};
use ends::{Member, Shared};
use probe::{Table, Terms as Compared, Trial};
use rows::Room;

/// Narrows by rows.
pub fn narrow(lows: &mut [u64], highs: &mut [u64], marks: &[u64], total: u64, limits: Limits) -> Result<(), Refusal> {
    let terms = Terms { marks, total, limits };
    check_lists(lows, highs, terms)?;
    narrow_members(lows, highs, terms).map_err(|number| Refusal { number, place: 0 })
}

/// Settles by rows.
pub fn settle(text: &[u8], table: &mut [Range], scratch: &mut [u64]) -> Result<u64, Unsettled> {
    settle_job(text, table, scratch.len(), narrow_members).map(|(_, passes)| passes)
}

/// Narrows ranges that were checked; answers 11 or 12 where there is no plan, and then changes nothing. Where members are
/// shut, the running ones are gathered, narrowed and put back.
fn narrow_members(lows: &mut [u64], highs: &mut [u64], terms: Terms) -> Result<(), u64> {
    if terms.marks.iter().all(|&mark| mark == RUNNING) {
        return narrow_running(lows, highs, terms.total, terms.limits);
    }
    let (mut own_lows, mut own_highs, mut places) = ([0; MOST_UNITS], [0; MOST_UNITS], [0; MOST_UNITS]);
    let mut count = 0;
    for (place, _) in terms.marks.iter().enumerate().filter(|(_, &mark)| mark == RUNNING) {
        (own_lows[count], own_highs[count], places[count]) = (lows[place], highs[place], place);
        count += 1;
    }
    narrow_running(&mut own_lows[..count], &mut own_highs[..count], terms.total, terms.limits)?;
    for (index, &place) in places[..count].iter().enumerate() {
        (lows[place], highs[place]) = (own_lows[index], own_highs[index]);
    }
    Ok(())
}

/// Narrows running members' ranges likewise. Few members get little room, which is sooner cleared.
fn narrow_running(lows: &mut [u64], highs: &mut [u64], total: u64, limits: Limits) -> Result<(), u64> {
    if !has_shares(lows, highs, total) {
        return Err(11);
    }
    if lows.is_empty() {
        return Ok(());
    }
    match lows.len() {
        0..=4 => narrow_sized::<4, 9>(lows, highs, total, limits),
        5..=8 => narrow_sized::<8, 17>(lows, highs, total, limits),
        9..=16 => narrow_sized::<16, 33>(lows, highs, total, limits),
        17..=64 => narrow_sized::<64, 129>(lows, highs, total, limits),
        _ => narrow_sized::<256, 513>(lows, highs, total, limits),
    }
}

/// Narrows a group that has shares and at most N members. Where pairs are not limited, no room for them is cleared.
fn narrow_sized<const N: usize, const R: usize>(
    lows: &mut [u64],
    highs: &mut [u64],
    total: u64,
    limits: Limits,
) -> Result<(), u64> {
    let mut room = Room::<N, R>::new();
    if limits.pairs == Limit::Any {
        return narrow_within(lows, highs, total, limits, &mut room, &mut []);
    }
    narrow_within(lows, highs, total, limits, &mut room, &mut [Apart::default(); R])
}

/// Narrows a group that has shares.
fn narrow_within<const N: usize, const R: usize>(
    lows: &mut [u64],
    highs: &mut [u64],
    total: u64,
    limits: Limits,
    room: &mut Room<N, R>,
    apart: &mut [Apart],
) -> Result<(), u64> {
    let rows = room.rows(lows, highs, apart);
    let table = Table { rows, apart, terms: Compared::of(lows, highs, total, limits) };
    let near = table.row_of(Trial::default(), table.rows.len() / 2);
    let levelled = table.look(Trial::default(), near);
    if !table.allows(levelled) {
        return Err(12);
    }
    let (level, mut left) = (levelled.level, levelled.left);
    let (mut down, mut up) = (Shared::NOTHING, Shared::NOTHING);
    for (low, high) in lows.iter_mut().zip(highs.iter_mut()) {
        let more = u64::from(left > 0 && *low <= level && level < *high);
        left -= more;
        let member = Member { low: *low, high: *high, share: clamp(*low, *high, level) + more };
        *low = ends::end(&table, member, member.low, near, &mut down);
        *high = ends::end(&table, member, member.high, near, &mut up);
    }
    Ok(())
}
