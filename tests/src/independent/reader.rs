//! Reading a job text: the form of each line, and the refusals of a text in the specification's order.

use super::ailment::check_line;
use super::{
    GREATEST_DEVIATION, GREATEST_PAIRS, GREATEST_SHARE, GREATEST_SPREAD, GREATEST_TOTAL, MOST_BYTES, MOST_GROUPS,
    MOST_MEMBERSHIPS, MOST_UNITS, RUNNING, SHUT,
};
use crate::calls;
use danivomel::{Counts, Limit, Limits, Range, Refusal};

/// A group of a job; a member is its unit's number less 1. Its line may say a pairs limit, any too, which it then keeps;
/// one that says none has the limit any.
#[derive(Clone, Debug, PartialEq, Eq)]
pub struct Group {
    pub total: u64,
    pub limits: Limits,
    pub says_pairs: bool,
    pub members: Vec<usize>,
}

/// What a group line holds: its unit numbers may be of no unit.
struct GroupLine {
    total: u64,
    limits: Limits,
    says_pairs: bool,
    numbers: Vec<u64>,
}

/// A job: the ranges of its unit lines, 0 to 0 for `(shut)`, with a mark for each, and its groups.
#[derive(Clone, Debug, Default, PartialEq, Eq)]
pub struct Job {
    pub lows: Vec<u64>,
    pub highs: Vec<u64>,
    pub marks: Vec<u64>,
    pub groups: Vec<Group>,
}

/// Fills a table from the unit lines; entries past the units, and on a refusal all, keep their values.
pub fn read(text: &[u8], table: &mut [Range]) -> Result<Counts, Refusal> {
    let job = read_job(text)?;
    let units = job.lows.len();
    if table.len() < units {
        return Err(Refusal { number: 1, place: 0 });
    }
    table[..units].copy_from_slice(&calls::table(&job.lows, &job.highs));
    Ok(Counts { units, groups: job.groups.len() })
}

/// Reads a whole job text.
pub fn read_job(text: &[u8]) -> Result<Job, Refusal> {
    if text.len() > MOST_BYTES {
        return Err(Refusal { number: 2, place: 0 });
    }
    let mut job = Job::default();
    for (index, ended) in text.split_inclusive(|&byte| byte == 10).enumerate() {
        add_line(&mut job, ended).map_err(|number| Refusal { number, place: index as u64 + 1 })?;
    }
    if job.lows.is_empty() {
        return Err(Refusal { number: 10, place: 0 });
    }
    Ok(job)
}

/// Adds one line, with its byte 10, to a job; or answers the first of 13, 14, 15 and 3 to 9 that applies to it.
fn add_line(job: &mut Job, ended: &[u8]) -> Result<(), u64> {
    let line = check_line(ended)?;
    if let Some((low, high, mark)) = unit_line(line) {
        check_unit(job, low, high)?;
        job.lows.push(low);
        job.highs.push(high);
        job.marks.push(mark);
        return Ok(());
    }
    let group = group_line(line).ok_or(3u64)?;
    check_group(job, &group)?;
    let members = group.numbers.iter().map(|&number| number as usize - 1).collect();
    job.groups.push(Group { total: group.total, limits: group.limits, says_pairs: group.says_pairs, members });
    Ok(())
}

/// The lowest of 4 to 7 that applies to a unit line; `(shut)` has the range 0 to 0.
fn check_unit(job: &Job, low: u64, high: u64) -> Result<(), u64> {
    if low > GREATEST_SHARE || high > GREATEST_SHARE {
        Err(4)
    } else if !job.groups.is_empty() {
        Err(5)
    } else if job.lows.len() == MOST_UNITS {
        Err(6)
    } else if low > high {
        Err(7)
    } else {
        Ok(())
    }
}

/// The lowest of 4 to 9 that applies to a group line.
fn check_group(job: &Job, group: &GroupLine) -> Result<(), u64> {
    let numbers = &group.numbers;
    let memberships = numbers.len() + job.groups.iter().map(|group| group.members.len()).sum::<usize>();
    if group.total > GREATEST_TOTAL || are_beyond(group.limits) {
        Err(4)
    } else if job.groups.len() == MOST_GROUPS || memberships > MOST_MEMBERSHIPS {
        Err(6)
    } else if numbers.iter().any(|&number| number == 0 || number > job.lows.len() as u64) {
        Err(8)
    } else if (1..numbers.len()).any(|i| numbers[..i].contains(&numbers[i])) {
        Err(9)
    } else {
        Ok(())
    }
}

/// Whether one of the limits is a number beyond its range.
fn are_beyond(limits: Limits) -> bool {
    let beyond = |limit: Limit, greatest: u64| matches!(limit, Limit::AtMost(most) if most > greatest);
    beyond(limits.deviation, GREATEST_DEVIATION)
        || beyond(limits.spread, GREATEST_SPREAD)
        || beyond(limits.pairs, GREATEST_PAIRS)
}

/// The low, the high and the mark of a unit line, where the line is in one of its two forms.
fn unit_line(line: &[u8]) -> Option<(u64, u64, u64)> {
    if line == b"(shut)" {
        return Some((0, 0, SHUT));
    }
    let (low, rest) = number(line.strip_prefix(b"(unit ")?)?;
    let (high, rest) = number(rest.strip_prefix(b" ")?)?;
    (rest == b")").then_some((low, high, RUNNING))
}

/// What a group line holds, where the line is in that form.
fn group_line(line: &[u8]) -> Option<GroupLine> {
    let (total, rest) = number(line.strip_prefix(b"(group ")?)?;
    let (deviation, rest) = limit(rest.strip_prefix(b" (dev ")?)?;
    let (spread, rest) = limit(rest.strip_prefix(b") (spread ")?)?;
    let (pairs, rest) = pairs_limit(rest)?;
    let (first, mut rest) = number(rest.strip_prefix(b") (of ")?)?;
    let mut numbers = vec![first];
    while let Some(more) = rest.strip_prefix(b" ") {
        let (next, after) = number(more)?;
        numbers.push(next);
        rest = after;
    }
    let limits = Limits { deviation, spread, pairs: pairs.unwrap_or(Limit::Any) };
    (rest == b"))").then_some(GroupLine { total, limits, says_pairs: pairs.is_some(), numbers })
}

/// The pairs limit where the bytes behind the spread's go on with one, and what follows.
fn pairs_limit(bytes: &[u8]) -> Option<(Option<Limit>, &[u8])> {
    match bytes.strip_prefix(b") (pairs ") {
        Some(rest) => limit(rest).map(|(pairs, rest)| (Some(pairs), rest)),
        None => Some((None, bytes)),
    }
}

/// A limit and what follows it.
fn limit(bytes: &[u8]) -> Option<(Limit, &[u8])> {
    if let Some(rest) = bytes.strip_prefix(b"any") {
        return Some((Limit::Any, rest));
    }
    let (most, rest) = number(bytes)?;
    Some((Limit::AtMost(most), rest))
}

/// A number in base ten without a leading zero, and what follows it; one too large for 64 bits is their greatest.
fn number(bytes: &[u8]) -> Option<(u64, &[u8])> {
    let length = bytes.iter().take_while(|byte| byte.is_ascii_digit()).count();
    let (digits, rest) = bytes.split_at(length);
    if digits.is_empty() || (digits[0] == b'0' && length > 1) {
        return None;
    }
    let value =
        digits.iter().fold(0u64, |value, &digit| value.saturating_mul(10).saturating_add(u64::from(digit - b'0')));
    Some((value, rest))
}
