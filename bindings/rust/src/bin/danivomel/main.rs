//! The command `danivomel`: the planner's calls for the late shift and for scripts.
//!
//! It decides nothing by itself. What is refused, settled, levelled or narrowed the proved library says; here the answer
//! is printed, and a refusal is put into words. The exit status is 0 for an answer, 1 for a refusal, and 2 for a file
//! that cannot be read or written or for wrong words on the command line.

mod advice;
mod answer;
mod call;
mod causes;
mod faults;
mod help;
mod job;
mod line;
mod plan;
mod sheet;
mod table;

use answer::answer;
use call::Call;
use danivomel::Refusal;
use std::ffi::OsString;
use std::io::{stderr, stdout, Write};
use std::process::ExitCode;

/// Why there is no answer.
pub enum Failure {
    /// The planner refuses; the text says what that means and what to do about it.
    Refused(Refusal, String),
    /// A file cannot be read, or the words on the command line are wrong; the line says which.
    Wrong(String),
}

/// The exit status of a refusal.
const REFUSED: u8 = 1;
/// The exit status where nothing was read or written.
const WRONG: u8 = 2;

fn main() -> ExitCode {
    let words: Vec<OsString> = std::env::args_os().skip(1).collect();
    let (status, written, told) = match Call::from_words(&words).and_then(answer) {
        Ok(written) => (0, written, String::new()),
        Err(Failure::Refused(refusal, told)) => {
            (REFUSED, format!("(refused {} {})\n", refusal.number, refusal.place).into_bytes(), told)
        }
        Err(Failure::Wrong(told)) => (WRONG, Vec::new(), format!("danivomel: {told}\n")),
    };
    if let Err(error) = stdout().write_all(&written).and_then(|()| stdout().flush()) {
        tell(&format!("danivomel: cannot write to standard output: {error}\n"));
        return ExitCode::from(WRONG);
    }
    tell(&told);
    ExitCode::from(status)
}

/// Writes to standard error; where that fails too there is nobody left to tell.
fn tell(text: &str) {
    let _ = stderr().write_all(text.as_bytes());
}
