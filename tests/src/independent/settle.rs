//! Settling a job: passes over the groups, each narrowing the table in turn, until one changes nothing.

use super::level::{check_numbers, check_order};
use super::narrow::{narrow_members, Terms};
use super::reader::{read_job, Group, Job};
use super::{MOST_UNITS, SCRATCH_PER_UNIT};
use crate::calls::{self, lists};
use danivomel::{Range, Refusal, Unsettled};

/// Narrows the members' lows and highs under what their group asks, or answers 11 or 12.
pub type Narrowing = fn(&mut [u64], &mut [u64], Terms) -> Result<(), u64>;

/// Settles the table under the groups of the text; on a refusal the table is as it was. Answers the passes.
pub fn settle(text: &[u8], table: &mut [Range], scratch: &mut [u64]) -> Result<u64, Unsettled> {
    settle_job(text, table, scratch.len(), narrow_members).map(|(_, passes)| passes)
}

/// Settles with a way to narrow, and answers the job that was read beside the passes.
pub fn settle_job(
    text: &[u8],
    table: &mut [Range],
    scratch: usize,
    narrow: Narrowing,
) -> Result<(Job, u64), Unsettled> {
    let job = check_job(text, table, scratch).map_err(|refusal| Unsettled { refusal, passes: 0 })?;
    let opening = &mut table[..job.lows.len()];
    let (mut lows, mut highs) = lists(opening);
    let passes = settle_groups(&job, &mut lows, &mut highs, narrow)?;
    opening.copy_from_slice(&calls::table(&lows, &highs));
    Ok((job, passes))
}

/// Reads the job, and checks the table and the scratch against it.
fn check_job(text: &[u8], table: &[Range], scratch: usize) -> Result<Job, Refusal> {
    let job = read_job(text)?;
    let units = job.lows.len();
    if table.len() < units || scratch < SCRATCH_PER_UNIT * units {
        return Err(Refusal { number: 1, place: 0 });
    }
    check_ranges(&table[..units], &job.marks)?;
    Ok(job)
}

/// Refusals 4, then 7 for ranges of a table, where a job's text says which units are shut.
pub fn check_ranges(ranges: &[Range], marks: &[u64]) -> Result<(), Refusal> {
    let (lows, highs) = lists(ranges);
    check_numbers(&lows, &highs, marks)?;
    check_order(&lows, &highs, marks)
}

/// Settles ranges that were checked; where a group has no plan, they are left as the turns before made them.
fn settle_groups(job: &Job, lows: &mut [u64], highs: &mut [u64], narrow: Narrowing) -> Result<u64, Unsettled> {
    let mut passes = 0;
    loop {
        passes += 1;
        let mut changed = false;
        for (index, group) in job.groups.iter().enumerate() {
            let place = index as u64 + 1;
            let refuse = |number| Unsettled { refusal: Refusal { number, place }, passes };
            changed |= revise(group, &job.marks, lows, highs, narrow).map_err(refuse)?;
        }
        if !changed {
            return Ok(passes);
        }
    }
}

/// One group's turn: narrows its members' ranges in the table, and says whether one of them moved.
fn revise(group: &Group, marks: &[u64], lows: &mut [u64], highs: &mut [u64], narrow: Narrowing) -> Result<bool, u64> {
    let n = group.members.len();
    let mut member_lows = [0; MOST_UNITS];
    let mut member_highs = [0; MOST_UNITS];
    let mut member_marks = [0; MOST_UNITS];
    for (member, &unit) in group.members.iter().enumerate() {
        member_lows[member] = lows[unit];
        member_highs[member] = highs[unit];
        member_marks[member] = marks[unit];
    }
    let terms = Terms { marks: &member_marks[..n], total: group.total, limits: group.limits };
    narrow(&mut member_lows[..n], &mut member_highs[..n], terms)?;
    let mut moved = false;
    for (member, &unit) in group.members.iter().enumerate() {
        moved |= lows[unit] != member_lows[member] || highs[unit] != member_highs[member];
        lows[unit] = member_lows[member];
        highs[unit] = member_highs[member];
    }
    Ok(moved)
}
