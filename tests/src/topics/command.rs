//! The command `danivomel`: what it prints and how it ends, for the examples, for random jobs and groups beside the
//! independent planner, for wrong words and for files that fail. Its own examples are in transcripts.

use super::program::{cut_after, examples, random_text, HAND_ON, SETTLE};
use super::read::Shown;
use crate::cases::damage::damage;
use crate::cases::groups::{large, limits_of, small, GroupCase};
use crate::check::{Checks, Topic};
use crate::independent::report::refusal_line;
use crate::independent::{self, RUNNING, SHUT};
use danivomel::{Limit, Refusal};
use std::fs::File;
use std::io::Write;
use std::process::{Command, Output, Stdio};

/// The command, which tests/run builds.
pub const PATH: &str = "tests/target/release/danivomel";

/// Tries the command.
pub fn run(checks: &mut Checks) {
    checks.topic("command, examples", "planner", on_examples);
    checks.topic("command, random jobs", "planner", random_jobs);
    checks.topic("command, one group", "planner", one_group);
    checks.topic("command, lines made visible", "planner", visible);
    checks.topic("command, wrong words", "planner", wrong_words);
    checks.topic("command, failed reads and writes", "planner", failures);
}

/// What the command does with some words and a text on standard input.
pub fn called(words: &[&str], text: &[u8]) -> Output {
    let mut command = Command::new(PATH);
    let pipes = command.args(words).stdin(Stdio::piped()).stdout(Stdio::piped()).stderr(Stdio::piped());
    let mut child = pipes.spawn().expect("the command starts");
    // Of a text that is too long the command reads no more than it needs, so it may close its input first.
    let _ = child.stdin.take().expect("the command has an input").write_all(text);
    child.wait_with_output().expect("the command ends")
}

/// Checks an answer: these bytes, nothing on standard error and the status 0; or a refusal's line, its words and 1.
fn answers(topic: &mut Topic, case: &str, run: &Output, expected: &[u8]) {
    let refused = expected.starts_with(b"(refused ");
    let told = String::from_utf8_lossy(&run.stderr);
    topic.same(&case, "standard output", Shown(&run.stdout), Shown(expected));
    topic.same(&case, "status", run.status.code(), Some(i32::from(refused)));
    topic.holds(&case, "words exactly for a refusal", refused == told.contains("\n  what to do: "));
    topic.holds(&case, "nothing else on standard error", refused || told.is_empty());
}

/// Each job of the examples, from its file and from standard input, in each way that prints what a program prints.
fn on_examples(topic: &mut Topic) {
    for (job, text) in examples() {
        let name = job.to_str().expect("a path of letters");
        let report = std::fs::read(job.with_extension("report")).unwrap_or_default();
        answers(topic, name, &called(&["settle", name], b""), &report);
        answers(topic, name, &called(&["settle"], &text), &report);
        answers(topic, name, &called(&["settle", "-"], &text), &report);
        answers(topic, name, &called(&["hand-on", name], b""), &(HAND_ON.plain)(&text));
        let settled = report.starts_with(b"(settled ");
        for way in ["table", "sheet"] {
            let run = called(&[way, name], b"");
            topic.same(&(way, name), "status", run.status.code(), Some(i32::from(!settled)));
            topic.holds(&(way, name), "refusal", settled || run.stdout == report);
        }
    }
}

/// Random jobs, sound and damaged: the report, and reading alone.
fn random_jobs(topic: &mut Topic) {
    for round in 0..300 {
        let mut text = random_text(topic);
        if round % 2 == 1 {
            damage(&mut topic.random, &mut text);
        }
        let shown = String::from_utf8_lossy(&text).into_owned();
        answers(topic, &shown, &called(&["settle"], &text), &(SETTLE.plain)(&text));
        let read = match independent::reader::read_job(&text) {
            Ok(job) => format!("units {}, groups {}\n", job.lows.len(), job.groups.len()),
            Err(refusal) => refusal_line(refusal),
        };
        answers(topic, &shown, &called(&["check"], &text), read.as_bytes());
        in_table(topic, &shown, &called(&["table"], &text).stdout, &(SETTLE.plain)(&text));
    }
}

/// A table has every number of the report: each unit's range, and each group's level, figures and shares.
fn in_table(topic: &mut Topic, case: &str, table: &[u8], report: &[u8]) {
    let (table, report) = (String::from_utf8_lossy(table), String::from_utf8_lossy(report));
    let (units, groups) = table.split_once("\n\ngroup ").unwrap_or((&table, ""));
    let groups: Vec<&str> = groups.split("\n\ngroup ").collect();
    for line in report.lines() {
        let words: Vec<&str> = line.split(&['(', ')', ' '][..]).filter(|word| !word.is_empty()).collect();
        let found = match words[..] {
            ["unit", unit, low, high] => {
                let range = units.lines().find(|line| line.split_whitespace().next() == Some(unit)).unwrap_or_default();
                range.ends_with(&format!(" {low} to {high}")) || (range.ends_with(" shut") && (low, high) == ("0", "0"))
            }
            ["group", number, level, deviation, spread, pairs, "plan", ..] => {
                let group = groups[number.parse::<usize>().expect("a number") - 1];
                let has = |words: String| group.contains(&words);
                let shares: Vec<&str> = shares_in(group);
                has(format!(", level {level}\n"))
                    && has(format!("  deviation {deviation}: "))
                    && has(format!("  spread {spread}: "))
                    && has(format!("  pairs {pairs}: "))
                    && shares == words[7..]
            }
            _ => true,
        };
        topic.holds(&(case, line, &table), "in the table", found);
    }
}

/// The shares in a group's part of a table.
fn shares_in(group: &str) -> Vec<&str> {
    let words: Vec<&str> =
        group.lines().filter(|line| line.starts_with("  unit ")).flat_map(str::split_whitespace).collect();
    words.chunks(3).map(|unit| if unit[2] == "shut" { "0" } else { unit[2] }).collect()
}

/// A group as words on the command line.
fn words_of(name: &str, case: &GroupCase) -> Vec<String> {
    let mut words = vec![name.to_string(), "--total".to_string(), case.total.to_string()];
    let limit = |limit| match limit {
        Limit::Any => "any".to_string(),
        Limit::AtMost(most) => most.to_string(),
    };
    if name == "narrow" {
        words.push(format!("--dev={}", limit(case.limits.deviation)));
        words.extend(["--spread".to_string(), limit(case.limits.spread)]);
        // without the option the limit is any
        if case.limits.pairs != Limit::Any || case.total % 2 == 0 {
            words.push(format!("--pairs={}", limit(case.limits.pairs)));
        }
    }
    let members = case.ranges().into_iter().zip(&case.marks);
    words.extend(
        members.map(|((low, high), &mark)| if mark == SHUT { "shut".into() } else { format!("{low}..{high}") }),
    );
    words
}

/// Random groups on the command line.
fn one_group(topic: &mut Topic) {
    for round in 0..300 {
        let mut case = if round % 2 == 0 { small(&mut topic.random) } else { large(&mut topic.random, 256) };
        case.limits = limits_of(&mut topic.random, &case);
        spoil(topic, &mut case);
        for (name, expected) in [("level", levelled(&case)), ("narrow", narrowed(&case))] {
            let words = words_of(name, &case);
            let words: Vec<&str> = words.iter().map(String::as_str).collect();
            let expected = expected.unwrap_or_else(refusal_line);
            answers(topic, &format!("{words:?}"), &called(&words, b""), expected.as_bytes());
        }
    }
}

/// Spoils half of the groups: a low above its high, a number beyond its range, or more members than a group has.
fn spoil(topic: &mut Topic, case: &mut GroupCase) {
    match topic.random.between(0, 7) {
        0 => case.lows[0] = case.highs[0] + 1,
        1 => case.highs[0] = topic.random.one_of(&[1_000_001, u64::MAX]),
        2 => case.total = topic.random.one_of(&[256_000_001, u64::MAX]),
        3 => {
            case.lows.resize(257, 0);
            case.highs.resize(257, 9);
            case.marks.resize(257, RUNNING);
        }
        _ => return,
    }
    // A shut member is one word on the command line, which has no range to spoil.
    case.marks[0] = RUNNING;
}

/// A group's line by the independent planner.
fn levelled(case: &GroupCase) -> Result<String, Refusal> {
    let mut plan = vec![0; case.lows.len()];
    let found = independent::level(&case.lows, &case.highs, &case.marks, case.total, &mut plan)?;
    let shares: String = plan.iter().map(|share| format!(" {share}")).collect();
    let (deviation, spread, pairs) = (found.deviation.0, found.spread.0, found.pairs.0);
    Ok(format!("(group 1 {} {deviation} {spread} {pairs} (plan{shares}))\n", found.level))
}

/// A group's unit lines by the independent planner.
fn narrowed(case: &GroupCase) -> Result<String, Refusal> {
    let (mut lows, mut highs) = (case.lows.clone(), case.highs.clone());
    independent::narrow(&mut lows, &mut highs, &case.marks, case.total, case.limits)?;
    let units = lows.iter().zip(&highs).enumerate();
    Ok(units.map(|(index, (low, high))| format!("(unit {} {low} {high})\n", index + 1)).collect())
}

/// Lines of random bytes are shown as `cat -et` shows them.
fn visible(topic: &mut Topic) {
    for _ in 0..200 {
        let length = topic.random.between(0, 60) as usize;
        let mut line: Vec<u8> = (0..length).map(|_| topic.random.between(0, 255) as u8).collect();
        line.retain(|&byte| byte != b'\n');
        line.push(b'\n');
        let mut cat = Command::new("cat").arg("-et").stdin(Stdio::piped()).stdout(Stdio::piped()).spawn().expect("cat");
        cat.stdin.take().expect("an input").write_all(&line).expect("the line is sent");
        let seen = cat.wait_with_output().expect("cat ends").stdout;
        let told = called(&["check"], &line).stderr;
        let shown = format!("\n  line 1:     {}\n", String::from_utf8_lossy(&seen).trim_end_matches('\n'));
        topic.holds(&(Shown(&line), Shown(&told)), &shown, String::from_utf8_lossy(&told).contains(&shown));
    }
}

/// Wrong words: nothing is printed but what is wrong, and the status is 2.
fn wrong_words(topic: &mut Topic) {
    let wrong: [&[&str]; 19] = [
        &[],
        &["plan"],
        &["Settle"],
        &["settle", "--fast"],
        &["settle", "examples/works.job", "examples/press.job"],
        &["level"],
        &["level", "--total"],
        &["level", "--total", "20"],
        &["level", "8..10"],
        &["level", "--total", "20", "--dev", "4", "8..10"],
        &["level", "--total", "20", "--pairs", "4", "8..10"],
        &["level", "--total", "20", "--total", "20", "8..10"],
        &["level", "--total", "12,000", "8..10"],
        &["level", "--total", "20", "8-10"],
        &["level", "--total", "20", "8..ten"],
        &["narrow", "--total", "20", "--dev", "-4", "8..10"],
        &["narrow", "--total", "20", "--spread", "", "8..10"],
        &["narrow", "--total", "20", "--pairs", "four", "8..10"],
        &["narrow", "--total", "20", "..10"],
    ];
    for words in wrong {
        let run = called(words, b"");
        let found = (run.status.code(), run.stdout.len(), run.stderr.starts_with(b"danivomel: "));
        topic.same(&words, "status, standard output and standard error", found, (Some(2), 0, true));
        topic.holds(&words, "help is named", String::from_utf8_lossy(&run.stderr).contains("--help"));
    }
}

/// Files that cannot be read or written: one line on standard error, and the status is 2.
fn failures(topic: &mut Topic) {
    let job = "examples/works.job";
    for way in ["settle", "check", "table", "sheet", "hand-on"] {
        let command = || Command::new(PATH);
        let full = || File::create("/dev/full").expect("/dev/full is opened");
        let cut = Stdio::from(cut_after(&std::fs::read(job).expect("the job is read")));
        fails(topic, "a file that is not there", command().args([way, "examples/none.job"]), "cannot read a job from ");
        fails(topic, "a folder", command().args([way, "examples"]), "cannot read a job from 'examples'");
        fails(topic, "an input that fails", command().arg(way).stdin(cut), "cannot read a job from 'standard input'");
        fails(topic, "no room", command().args([way, job]).stdout(full()), "cannot write to standard output: ");
        let refused = "examples/refused/09-twice.job";
        fails(topic, "no room", command().args([way, refused]).stdout(full()), "cannot write to standard output: ");
    }
}

/// Checks that a call ends with the status 2 and one line on standard error, which starts so, and writes nothing else.
fn fails(topic: &mut Topic, case: &str, command: &mut Command, start: &str) {
    let run = command.output().expect("the command runs");
    let told = String::from_utf8_lossy(&run.stderr);
    topic.same(&case, "status and standard output", (run.status.code(), run.stdout.len()), (Some(2), 0));
    let one = told.starts_with(&format!("danivomel: {start}")) && told.find('\n') == Some(told.len() - 1);
    topic.holds(&(case, &told), "the line on standard error", one);
}
