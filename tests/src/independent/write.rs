//! A job with the ranges of a table as a job text, and what the program hand_on writes for a job text.

use super::reader::{read, read_job, Group};
use super::report::refusal_line;
use super::settle::{check_ranges, settle};
use super::{MOST_BYTES, MOST_UNITS, SCRATCH_PER_UNIT, SHUT};
use danivomel::{Limit, Limits, Range, Refusal};
use std::fmt::Write;

/// Writes the job of the text with the table's ranges to the start of the buffer; bytes past it, and on a refusal all,
/// keep their values. Answers the length of what is written.
pub fn write(text: &[u8], table: &[Range], buffer: &mut [u8]) -> Result<usize, Refusal> {
    let written = written(text, table, buffer.len())?;
    buffer[..written.len()].copy_from_slice(&written);
    Ok(written.len())
}

/// The job of the text with the table's ranges as a job text, for a buffer of so many bytes.
pub fn written(text: &[u8], table: &[Range], buffer: usize) -> Result<Vec<u8>, Refusal> {
    let job = read_job(text)?;
    let ranges = table.get(..job.lows.len()).ok_or(Refusal { number: 1, place: 0 })?;
    check_ranges(ranges, &job.marks)?;
    let mut lines = String::new();
    for (range, &mark) in ranges.iter().zip(&job.marks) {
        let _ = match mark {
            SHUT => writeln!(lines, "(shut)"),
            _ => writeln!(lines, "(unit {} {})", range.low, range.high),
        };
    }
    for group in &job.groups {
        add_group(&mut lines, group);
    }
    if lines.len() > buffer {
        return Err(Refusal { number: 1, place: 0 });
    }
    Ok(lines.into_bytes())
}

/// Adds the line of a group, which says a pairs limit only if its own line did.
fn add_group(lines: &mut String, group: &Group) {
    let _ = write!(lines, "(group {}", group.total);
    let Limits { deviation, spread, pairs } = group.limits;
    let limits = [("dev", deviation), ("spread", spread), ("pairs", pairs)];
    for (name, limit) in &limits[..if group.says_pairs { 3 } else { 2 }] {
        let _ = match limit {
            Limit::Any => write!(lines, " ({name} any)"),
            Limit::AtMost(most) => write!(lines, " ({name} {most})"),
        };
    }
    lines.push_str(" (of");
    for unit in &group.members {
        let _ = write!(lines, " {}", unit + 1);
    }
    lines.push_str("))\n");
}

/// What the program hand_on writes for a job text: the settled job, or the refusal's line.
pub fn hand_on(text: &[u8]) -> Vec<u8> {
    handed_on(text).unwrap_or_else(|refusal| refusal_line(refusal).into_bytes())
}

/// The job settled from the ranges of its unit lines, as a job text.
fn handed_on(text: &[u8]) -> Result<Vec<u8>, Refusal> {
    let mut table = [Range { low: 0, high: 0 }; MOST_UNITS];
    read(text, &mut table)?;
    settle(text, &mut table, &mut [0; SCRATCH_PER_UNIT * MOST_UNITS]).map_err(|unsettled| unsettled.refusal)?;
    written(text, &table, MOST_BYTES)
}
