//! The benchmark: the proved planner beside plain Rust, Gecode and document 001's rule, on the same jobs in the same
//! run. Writes bench/results and the tables of docs/BENCHMARKS.md.

mod chart;
mod charts;
mod check;
mod gecode;
mod goals;
mod jobs;
mod page;
mod plain;
mod planners;
mod rational;
mod table;
mod timing;
mod unkind;
mod work;

use goals::Results;
use std::process::ExitCode;
use std::time::Instant;
use std::{fs, io, thread};
use table::Table;
use work::paper::Row;

fn main() -> ExitCode {
    match run() {
        Ok(()) => ExitCode::SUCCESS,
        Err(error) => {
            eprintln!("bench: {error}");
            ExitCode::FAILURE
        }
    }
}

/// Measures everything; where this is no trial, writes it down.
fn run() -> io::Result<()> {
    let start = Instant::now();
    let load = load();
    println!("seed {}; load {load}", jobs::SEED);
    if !timing::is_trial() {
        page::check()?;
    }
    if load.parse().is_ok_and(|load: f64| load > 1.0) {
        println!("this machine is busy: times mean little, ratios a little more");
    }
    let (mut tables, results, rows) = measured(start);
    tables.push(shown(start, "the goals", || goals::run(&results)));
    let run = run_line(start, &load);
    println!("{run}");
    if timing::is_trial() {
        return Ok(());
    }
    page::write_result("narrow.svg", &charts::narrow(&results.narrow))?;
    page::write_result("paper.svg", &charts::paper(&rows))?;
    page::write_tables(&tables, &run)?;
    println!("tables and charts: bench/results, docs/BENCHMARKS.md");
    Ok(())
}

/// Does all work, and shows where it is.
fn measured(start: Instant) -> (Vec<Table>, Results, Vec<Row>) {
    let (levels, level) = shown(start, "levelling one group", work::level::run);
    let (headrooms, headroom) = shown(start, "levelling one group with copies left over", work::headroom::run);
    let (narrows, narrow) = shown(start, "narrowing one group", work::narrow::run);
    let growth = shown(start, "growth of narrowing with the members", || charts::growth(&narrow));
    let wide = shown(start, "narrowing one group of shares to 1,000,000", work::narrow::run_wide);
    let (unkinds, unkind) = shown(start, "narrowing one unkind group", work::unkind::run);
    let (paireds, pairs) = shown(start, "narrowing one group with a pairs limit", work::pairs::run);
    let (reads, read) = shown(start, "reading", work::read::run);
    let (settles, settle) = shown(start, "settling", work::settle::run);
    let reports = shown(start, "reporting", work::report::run);
    let (writes, write) = shown(start, "writing", work::write::run);
    let shut = shown(start, "a third of the members shut", work::shut::run);
    let filtering = shown(start, "what Gecode leaves", work::filtering::run);
    let pairs_left = shown(start, "what Gecode leaves under a pairs limit", work::pairs::run_left);
    let refusals = shown(start, "what Gecode does not refuse", work::filtering::run_refusals);
    let (paper, rows) = shown(start, "the experiment of 001", work::paper::run);
    let mut tables = vec![levels, headrooms, narrows, growth, wide, unkinds, paireds];
    tables.extend([reads, settles, reports, writes, shut, filtering, pairs_left, refusals]);
    tables.extend(paper);
    (tables, Results { level, headroom, narrow, unkind, pairs, read, settle, write }, rows)
}

/// Says what is done now, and does it.
fn shown<T>(start: Instant, name: &str, work: impl FnOnce() -> T) -> T {
    println!("[{:>4.0} s] {name}", start.elapsed().as_secs_f64());
    work()
}

/// What there is to know about a run.
fn run_line(start: Instant, load: &str) -> String {
    format!(
        "Seed {}; {} {}, {} cores, load {load} at the start; {} answers compared, none different; {:.0} s.",
        jobs::SEED,
        std::env::consts::ARCH,
        std::env::consts::OS,
        thread::available_parallelism().map_or(1, usize::from),
        check::compared(),
        start.elapsed().as_secs_f64(),
    )
}

/// The machine's load over the last minute.
fn load() -> String {
    let text = fs::read_to_string("/proc/loadavg").unwrap_or_default();
    text.split(' ').next().unwrap_or("unknown").to_string()
}
