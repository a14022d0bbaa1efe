//! The six calls.

use crate::foreign::{
    danivomel_level, danivomel_narrow, danivomel_read, danivomel_report, danivomel_settle, danivomel_write,
};
use crate::{Counts, Levelled, Limits, Range, Refusal, Reported, Unsettled};

/// A refusal as an error, and number 0 as none.
#[inline]
fn accepted(refusal: Refusal) -> Result<(), Refusal> {
    match refusal.number {
        0 => Ok(()),
        _ => Err(refusal),
    }
}

/// Levels a group: writes the most even shares within the lows and highs that add up to the total to the first numbers
/// of the plan, and answers the level and the figures. No other such shares have a lesser deviation, spread or pair
/// differences. Copies left over at the level go one each to the members with the most room up to their high (high −
/// level), among equals to the earlier.
///
/// The marks have a number for each member: [`RUNNING`](crate::RUNNING), or [`SHUT`](crate::SHUT) for a member that is
/// off the run, whose range is 0 to 0. A shut member's share is 0, and the figures leave it out.
///
/// # Errors
///
/// In this order: 1 for lows, highs and marks empty, of unequal length or over 256, or a plan shorter than the group; 4
/// for a low, high or mark of a unit beyond its range, place the unit, then for the total, place 0; 7 for a low above its
/// high or a shut member's range other than 0 to 0, place the unit; 11 for a total out of reach, place 0. The plan is then
/// as it was.
///
/// ```
/// use danivomel::{level, Deviation, Pairs, Spread, RUNNING, SHUT};
/// let mut plan = [0; 4];
/// let levelled = level(&[8, 4, 1, 3], &[10, 7, 5, 4], &[RUNNING; 4], 20, &mut plan).unwrap();
/// assert_eq!(plan, [8, 4, 4, 4]);
/// assert_eq!(levelled.level, 4);
/// assert_eq!((levelled.deviation, levelled.spread, levelled.pairs), (Deviation(24), Spread(48), Pairs(12)));
/// assert_eq!(level(&[8, 4], &[10, 7], &[RUNNING; 2], 18, &mut plan).unwrap_err().number, 11);
///
/// level(&[1, 2, 3], &[3, 6, 9], &[RUNNING; 3], 10, &mut plan).unwrap();
/// assert_eq!(plan[..3], [3, 3, 4]);
///
/// let even = level(&[0; 3], &[9, 0, 9], &[RUNNING, SHUT, RUNNING], 10, &mut plan).unwrap();
/// assert_eq!((&plan[..3], even.deviation), (&[5, 0, 5][..], Deviation(0)));
/// let uneven = level(&[0; 3], &[9, 0, 9], &[RUNNING; 3], 10, &mut plan).unwrap();
/// assert_eq!((&plan[..3], uneven.deviation), (&[5, 0, 5][..], Deviation(20)));
/// ```
#[inline]
pub fn level(lows: &[u64], highs: &[u64], marks: &[u64], total: u64, plan: &mut [u64]) -> Result<Levelled, Refusal> {
    // SAFETY: each pointer and count is a slice's, and no other slice overlaps the plan, which is borrowed mutably.
    let answer = unsafe {
        danivomel_level(
            lows.as_ptr(),
            lows.len(),
            highs.as_ptr(),
            highs.len(),
            marks.as_ptr(),
            marks.len(),
            total,
            plan.as_mut_ptr(),
            plan.len(),
        )
    };
    accepted(answer.refusal)?;
    Ok(Levelled { level: answer.level, deviation: answer.deviation, spread: answer.spread, pairs: answer.pairs })
}

/// Narrows a group in place: leaves for each member exactly the values that some plan takes, where a plan is a choice
/// of shares within the lows and highs at the call that add up to the total and are within the three limits. The marks
/// are those of [`level`]: the figures are the running members', and a shut member keeps its range 0 to 0.
///
/// # Errors
///
/// As [`level`] does up to 11, with 4 for the limits too, place 0; then 12 where shares exist and none is within the
/// limits, place 0. The lists are then as they were.
///
/// ```
/// use danivomel::{narrow, Limit, Limits, RUNNING, SHUT};
/// let (mut lows, mut highs) = ([8, 4, 1, 3], [10, 7, 5, 4]);
/// let limits = Limits { deviation: Limit::AtMost(28), ..Limits::ANY };
/// narrow(&mut lows, &mut highs, &[RUNNING; 4], 20, limits).unwrap();
/// assert_eq!((lows, highs), ([8, 4, 3, 3], [8, 5, 5, 4]));
/// let limits = Limits { pairs: Limit::AtMost(15), ..limits };
/// narrow(&mut lows, &mut highs, &[RUNNING; 4], 20, limits).unwrap();
/// assert_eq!((lows, highs), ([8, 4, 4, 4], [8, 4, 4, 4]));
///
/// let (mut lows, mut highs) = ([0; 3], [9, 0, 9]);
/// let limits = Limits { deviation: Limit::AtMost(4), ..Limits::ANY };
/// narrow(&mut lows, &mut highs, &[RUNNING, SHUT, RUNNING], 10, limits).unwrap();
/// assert_eq!((lows, highs), ([4, 0, 4], [6, 0, 6]));
/// assert_eq!(narrow(&mut lows, &mut highs, &[RUNNING; 3], 10, limits).unwrap_err().number, 12);
/// ```
#[inline]
pub fn narrow(lows: &mut [u64], highs: &mut [u64], marks: &[u64], total: u64, limits: Limits) -> Result<(), Refusal> {
    // SAFETY: each pointer and count is a slice's, and no other slice overlaps lows or highs, both borrowed mutably.
    accepted(unsafe {
        danivomel_narrow(
            lows.as_mut_ptr(),
            lows.len(),
            highs.as_mut_ptr(),
            highs.len(),
            marks.as_ptr(),
            marks.len(),
            total,
            limits,
        )
    })
}

/// Reads a job text into a table, which then begins with the ranges of the unit lines, 0 to 0 for `(shut)`; entries past
/// the units keep their values.
///
/// # Errors
///
/// In this order: 2 for a text over 65,536 bytes; the first of 13, 14, 15 and 3 to 9 at the first bad line, place the
/// line; 10 for no unit line; 1 for a table too short for the units. The table is then as it was.
///
/// ```
/// use danivomel::{read, Range};
/// let mut table = [Range { low: 9, high: 9 }; 3];
/// let counts = read(b"(unit 1 5)\n(shut)\n", &mut table).unwrap();
/// assert_eq!((counts.units, counts.groups), (2, 0));
/// assert_eq!(table, [Range { low: 1, high: 5 }, Range { low: 0, high: 0 }, Range { low: 9, high: 9 }]);
/// ```
pub fn read(text: &[u8], table: &mut [Range]) -> Result<Counts, Refusal> {
    // SAFETY: each pointer and count is a slice's, no other slice overlaps the table, which is borrowed mutably, and a
    // range is laid out as the archive's: both are repr(C).
    let answer = unsafe { danivomel_read(text.as_ptr(), text.len(), table.as_mut_ptr(), table.len()) };
    accepted(answer.refusal)?;
    Ok(Counts { units: answer.units, groups: answer.groups })
}

/// Settles a table under the groups of a job text: opens with the ranges that it holds, and leaves the greatest ranges
/// inside them in which each value is taken, in each of its unit's groups, by a plan drawn from them. Answers the
/// passes; entries past the units keep their values. The text says which units are shut: their range in the table is 0 to
/// 0, and the figures of their groups leave them out.
///
/// The scratch has [`SCRATCH_PER_UNIT`](crate::SCRATCH_PER_UNIT) numbers a unit; what it held changes nothing, and it
/// holds anything afterwards.
///
/// # Errors
///
/// As [`read`] does up to 10; 1 for a table or scratch too short for the units; 4, then 7 for the table's ranges (a low
/// above its high, or a shut unit's range other than 0 to 0), place the first such unit; 11 and 12 where no such ranges
/// exist, place the group. The table is then as it was.
///
/// ```
/// use danivomel::{settle, Range, Refusal};
/// let job = b"(unit 0 10)\n(shut)\n(unit 0 10)\n(group 10 (dev 4) (spread any) (of 1 2 3))\n";
/// let (open, shut) = (Range { low: 0, high: 10 }, Range { low: 0, high: 0 });
/// let mut table = [open, shut, open];
/// assert_eq!(settle(job, &mut table, &mut [0; 24]), Ok(2));
/// assert_eq!(table, [Range { low: 4, high: 6 }, shut, Range { low: 4, high: 6 }]);
/// let refusal = settle(job, &mut [open; 3], &mut [0; 24]).unwrap_err().refusal;
/// assert_eq!(refusal, Refusal { number: 7, place: 2 });
/// ```
pub fn settle(text: &[u8], table: &mut [Range], scratch: &mut [u64]) -> Result<u64, Unsettled> {
    // SAFETY: as for reading, and the slices do not overlap, since two are borrowed mutably.
    let answer = unsafe {
        danivomel_settle(
            text.as_ptr(),
            text.len(),
            table.as_mut_ptr(),
            table.len(),
            scratch.as_mut_ptr(),
            scratch.len(),
        )
    };
    accepted(answer.refusal).map_err(|refusal| Unsettled { refusal, passes: answer.passes })?;
    Ok(answer.passes)
}

/// Settles as [`settle`] does and writes the report to the start of the buffer, which has at least
/// [`BUFFER_BYTES`](crate::BUFFER_BYTES) bytes; answers the report's length and the passes. Bytes past the report keep
/// their values.
///
/// # Errors
///
/// 1 for a shorter buffer first, then as [`settle`] does. Table and buffer are then as they were.
///
/// ```
/// use danivomel::{report, Range, BUFFER_BYTES, SCRATCH_PER_UNIT};
/// let job = b"(unit 3 8)\n(unit 0 9)\n(group 10 (dev any) (spread any) (of 1 2))\n";
/// let mut table = [Range { low: 3, high: 8 }, Range { low: 0, high: 9 }];
/// let mut buffer = vec![0; BUFFER_BYTES];
/// let reported = report(job, &mut table, &mut [0; 2 * SCRATCH_PER_UNIT], &mut buffer).unwrap();
/// let text = b"(settled 2)\n(unit 1 3 8)\n(unit 2 2 7)\n(group 1 5 0 0 0 (plan 5 5))\n";
/// assert_eq!(buffer[..reported.length], text[..]);
/// assert_eq!(reported.passes, 2);
/// ```
pub fn report(text: &[u8], table: &mut [Range], scratch: &mut [u64], buffer: &mut [u8]) -> Result<Reported, Unsettled> {
    // SAFETY: as for reading, and the slices do not overlap, since three are borrowed mutably.
    let answer = unsafe {
        danivomel_report(
            text.as_ptr(),
            text.len(),
            table.as_mut_ptr(),
            table.len(),
            scratch.as_mut_ptr(),
            scratch.len(),
            buffer.as_mut_ptr(),
            buffer.len(),
        )
    };
    accepted(answer.refusal).map_err(|refusal| Unsettled { refusal, passes: answer.passes })?;
    Ok(Reported { length: answer.length, passes: answer.passes })
}

/// Writes a job as a job text to the start of the buffer: the unit lines hold the ranges of the table, those of shut units
/// stay `(shut)`, and the group lines are those of the text. Answers the length of what is written; bytes past it keep
/// their values. Entries past the units are not looked at.
///
/// What is written reads as the same job with the table's ranges, and a settled job that was written settles in one
/// pass. A buffer of [`WRITTEN_BYTES`](crate::WRITTEN_BYTES) bytes takes every job.
///
/// # Errors
///
/// As [`read`] does; then 4, then 7 for the table's ranges as [`settle`] does; then 1 for a buffer shorter than what is to
/// be written. The buffer is then as it was.
///
/// ```
/// use danivomel::{settle, write, Range, WRITTEN_BYTES};
/// let job = b"(unit 0 10)\n(unit 0 10)\n(group 10 (dev 4) (spread any) (of 1 2))\n";
/// let mut table = [Range { low: 0, high: 10 }; 2];
/// settle(job, &mut table, &mut [0; 16]).unwrap();
/// let mut buffer = [0; WRITTEN_BYTES];
/// let length = write(job, &table, &mut buffer).unwrap();
/// let settled = b"(unit 4 6)\n(unit 4 6)\n(group 10 (dev 4) (spread any) (of 1 2))\n";
/// assert_eq!(buffer[..length], settled[..]);
/// assert_eq!(settle(settled, &mut table, &mut [0; 16]), Ok(1));
/// assert_eq!(write(job, &table, &mut buffer[..length - 1]).unwrap_err().number, 1);
/// ```
pub fn write(text: &[u8], table: &[Range], buffer: &mut [u8]) -> Result<usize, Refusal> {
    // SAFETY: as for reading, but it is the buffer that is written and borrowed mutably, and the table is only read.
    let answer = unsafe {
        danivomel_write(text.as_ptr(), text.len(), table.as_ptr(), table.len(), buffer.as_mut_ptr(), buffer.len())
    };
    accepted(answer.refusal)?;
    Ok(answer.length)
}
