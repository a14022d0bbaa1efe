//! Runs all tests, in the repository's folder and with what tests/run builds there. An argument is the seed that the
//! topics draw theirs from.

use danivomel_tests::calls::OnTexts;
use danivomel_tests::check::Checks;
use danivomel_tests::topics::{command, installed, linked, program, sources, transcripts};
use danivomel_tests::{independent, topics};
use std::path::Path;
use std::process::ExitCode;

fn main() -> ExitCode {
    let seed = match seed_if_ready() {
        Ok(seed) => seed,
        Err(message) => {
            eprintln!("danivomel-tests: {message}");
            return ExitCode::from(2);
        }
    };
    println!("seed {seed}");
    let mut checks = Checks::new(seed);
    sources::run(&mut checks);
    independent_planner(&mut checks);
    proved_planner(&mut checks);
    program::run(&mut checks);
    command::run(&mut checks);
    transcripts::run(&mut checks);
    linked::run(&mut checks);
    installed::run(&mut checks);
    checks.end()
}

/// The seed, 1 where none is given; or what is wrong with the call.
fn seed_if_ready() -> Result<u64, String> {
    let programs =
        [program::SETTLE.path, program::HAND_ON.path, command::PATH, linked::C_PROGRAM, linked::C_WORDS, linked::PRESS];
    let mut built = programs.into_iter().chain(linked::EVENINGS).chain(linked::HANDED_ON).chain(linked::SHUT);
    if let Some(missing) = built.find(|path| !Path::new(path).is_file()) {
        return Err(format!("{missing} is not there; tests/run builds it"));
    }
    match std::env::args_os().nth(1) {
        None => Ok(1),
        Some(word) => word
            .to_str()
            .and_then(|word| word.parse().ok())
            .ok_or_else(|| format!("the seed is a whole number of 64 bits, not {word:?}")),
    }
}

/// The independent planner against brute force, so that the judge is judged.
fn independent_planner(checks: &mut Checks) {
    let who = "independent";
    topics::level::run(checks, who, independent::level);
    topics::lists::run_level(checks, who, independent::level);
    topics::additions::run(checks);
    topics::narrow::run(checks, who, independent::narrow);
    topics::lists::run_narrow(checks, who, independent::narrow);
    topics::marks::run(checks, who, independent::level, independent::narrow);
    topics::pairs::run_lists(checks, who, independent::level, independent::narrow);
    topics::headroom::run_lists(checks, who, independent::level, independent::narrow);
    topics::judge::run(checks);
    topics::read::run(checks, who, independent::read);
    topics::lines::run(checks, who, independent::read);
    topics::ailments::run(checks, who, independent::read);
    topics::calls::run_read(checks, who, independent::read);
    topics::settle::run(checks, who, independent::settle);
    topics::tables::run(checks, who, independent::settle);
    topics::calls::run_settle(checks, who, independent::settle);
    topics::report::run(checks, who, independent::report);
    topics::calls::run_report(checks, who, independent::report);
    topics::write::run(checks, who, independent::write);
    topics::calls::run_write(checks, who, independent::write);
    let planner = OnTexts {
        read: independent::read,
        settle: independent::settle,
        report: independent::report,
        write: independent::write,
    };
    topics::handed::run(checks, who, planner);
    topics::shut::run(checks, who, planner);
    topics::pairs::run_texts(checks, who, planner);
    topics::headroom::run_texts(checks, who, planner);
}

/// The proved planner against brute force and against the independent planner.
fn proved_planner(checks: &mut Checks) {
    let who = "planner";
    topics::level::run(checks, who, danivomel::level);
    topics::level::compare(checks, who, danivomel::level);
    topics::lists::run_level(checks, who, danivomel::level);
    topics::narrow::run(checks, who, danivomel::narrow);
    topics::narrow::compare(checks, who, danivomel::narrow);
    topics::lists::run_narrow(checks, who, danivomel::narrow);
    topics::marks::run(checks, who, danivomel::level, danivomel::narrow);
    topics::pairs::run_lists(checks, who, danivomel::level, danivomel::narrow);
    topics::headroom::run_lists(checks, who, danivomel::level, danivomel::narrow);
    topics::headroom::compare(checks, who, danivomel::level);
    topics::read::run(checks, who, danivomel::read);
    topics::read::compare(checks, who, danivomel::read);
    topics::lines::run(checks, who, danivomel::read);
    topics::ailments::run(checks, who, danivomel::read);
    topics::calls::run_read(checks, who, danivomel::read);
    topics::settle::run(checks, who, danivomel::settle);
    topics::settle::compare(checks, who, danivomel::settle);
    topics::tables::run(checks, who, danivomel::settle);
    topics::calls::run_settle(checks, who, danivomel::settle);
    topics::report::run(checks, who, danivomel::report);
    topics::report::compare(checks, who, danivomel::report);
    topics::calls::run_report(checks, who, danivomel::report);
    topics::write::run(checks, who, danivomel::write);
    topics::write::compare(checks, who, danivomel::write);
    topics::calls::run_write(checks, who, danivomel::write);
    let planner = OnTexts {
        read: danivomel::read,
        settle: danivomel::settle,
        report: danivomel::report,
        write: danivomel::write,
    };
    topics::handed::run(checks, who, planner);
    topics::shut::run(checks, who, planner);
    topics::shut::compare(checks, who, planner);
    topics::pairs::run_texts(checks, who, planner);
    topics::headroom::run_texts(checks, who, planner);
}
