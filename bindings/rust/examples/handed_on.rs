//! The evening's settled job handed on, from Rust. The evening desk settles a job and writes what is settled as a job
//! text, which is printed here. The day desk has this text alone: it reads it, lowers the high of one unit and settles
//! on, and the ranges that this leaves are printed.
//!
//!     handed_on JOB UNIT HIGH

use danivomel::{read, settle, write, Range, MOST_UNITS, SCRATCH_PER_UNIT, WRITTEN_BYTES};
use std::error::Error;
use std::process::ExitCode;

fn main() -> ExitCode {
    let words: Vec<String> = std::env::args_os().skip(1).map(|word| word.to_string_lossy().into_owned()).collect();
    let done = match &words[..] {
        [path, unit, high] => handed_on(path, unit, high),
        _ => Err("call it as: handed_on JOB UNIT HIGH".into()),
    };
    match done {
        Ok(()) => ExitCode::SUCCESS,
        Err(error) => {
            eprintln!("handed_on: {error}");
            ExitCode::FAILURE
        }
    }
}

/// Does the work of the program.
fn handed_on(path: &str, unit: &str, high: &str) -> Result<(), Box<dyn Error>> {
    let job = std::fs::read(path).map_err(|error| format!("cannot read a job from '{path}': {error}"))?;
    let mut table = [Range::default(); MOST_UNITS];
    let units = read(&job, &mut table)?.units;
    let unit: usize = unit.parse().map_err(|_| format!("no unit's number is '{unit}'"))?;
    let high: u64 = high.parse().map_err(|_| format!("no whole number is '{high}'"))?;
    if unit < 1 || unit > units {
        return Err(format!("the job has no unit {unit}").into());
    }
    let text = evening(&job, &mut table)?;
    print!("{}", String::from_utf8_lossy(&text));
    day(&text, unit, high)
}

/// The evening desk: settles a job over its table, and writes the settled job.
fn evening(job: &[u8], table: &mut [Range]) -> Result<Vec<u8>, Box<dyn Error>> {
    let mut buffer = vec![0; WRITTEN_BYTES];
    settle(job, table, &mut [0; SCRATCH_PER_UNIT * MOST_UNITS])?;
    let length = write(job, table, &mut buffer)?;
    buffer.truncate(length);
    Ok(buffer)
}

/// The day desk: reads the job that was handed on, lowers the high of one unit and settles on, and prints the ranges as
/// a report does.
fn day(text: &[u8], unit: usize, high: u64) -> Result<(), Box<dyn Error>> {
    let mut table = [Range::default(); MOST_UNITS];
    let units = read(text, &mut table)?.units;
    table[unit - 1].high = high.min(table[unit - 1].high);
    println!("(settled {})", settle(text, &mut table, &mut [0; SCRATCH_PER_UNIT * MOST_UNITS])?);
    for (index, range) in table[..units].iter().enumerate() {
        println!("(unit {} {} {})", index + 1, range.low, range.high);
    }
    Ok(())
}
