//! The evening's change, from Rust: settles a job, lowers the high of one unit in the table that this leaves, and settles
//! again. The job text stays as it is; the table carries the change.
//!
//!     evening JOB UNIT HIGH

use danivomel::{read, settle, Range, Unsettled, MOST_UNITS, SCRATCH_PER_UNIT};
use std::error::Error;
use std::process::ExitCode;

fn main() -> ExitCode {
    let words: Vec<String> = std::env::args_os().skip(1).map(|word| word.to_string_lossy().into_owned()).collect();
    let done = match &words[..] {
        [path, unit, high] => evening(path, unit, high),
        _ => Err("call it as: evening JOB UNIT HIGH".into()),
    };
    match done {
        Ok(()) => ExitCode::SUCCESS,
        Err(error) => {
            eprintln!("evening: {error}");
            ExitCode::FAILURE
        }
    }
}

/// Does the work of the program.
fn evening(path: &str, unit: &str, high: &str) -> Result<(), Box<dyn Error>> {
    let job = std::fs::read(path).map_err(|error| format!("cannot read a job from '{path}': {error}"))?;
    let mut table = [Range::default(); MOST_UNITS];
    let units = read(&job, &mut table)?.units;
    let unit: usize = unit.parse().map_err(|_| format!("no unit's number is '{unit}'"))?;
    let high: u64 = high.parse().map_err(|_| format!("no whole number is '{high}'"))?;
    if unit < 1 || unit > units {
        return Err(format!("the job has no unit {unit}").into());
    }
    show_settled(&job, &mut table[..units])?;
    table[unit - 1].high = high.min(table[unit - 1].high);
    show_settled(&job, &mut table[..units])?;
    Ok(())
}

/// Settles a table and prints its ranges as a report does.
fn show_settled(job: &[u8], table: &mut [Range]) -> Result<(), Unsettled> {
    let mut scratch = [0; SCRATCH_PER_UNIT * MOST_UNITS];
    println!("(settled {})", settle(job, table, &mut scratch)?);
    for (index, range) in table.iter().enumerate() {
        println!("(unit {} {} {})", index + 1, range.low, range.high);
    }
    Ok(())
}
