//! What is linked with the archive: programs in C over the header, the evening's change, the job handed on and the shut
//! unit from C and from Rust, and the documentation examples and the words of the package for Rust.

use crate::check::{Checks, Topic};
use danivomel::Refusal;
use std::process::{Command, Output};

/// The program of tests/c, which tests/run builds.
pub const C_PROGRAM: &str = "tests/target/link";
/// The header's words for refusals, likewise.
pub const C_WORDS: &str = "tests/target/words";
/// The press's group levelled and narrowed from C, likewise.
pub const PRESS: &str = "tests/target/press";
/// The evening's change from C and from Rust, likewise.
pub const EVENINGS: [&str; 2] = ["tests/target/evening", "tests/target/release/examples/evening"];
/// The evening's job handed on from C and from Rust, likewise.
pub const HANDED_ON: [&str; 2] = ["tests/target/handed_on", "tests/target/release/examples/handed_on"];

/// A shut unit from C and from Rust, likewise.
pub const SHUT: [&str; 2] = ["tests/target/shut", "tests/target/release/examples/shut"];

/// Tries all of them.
pub fn run(checks: &mut Checks) {
    checks.topic("program in C", "planner", |topic| {
        let output = output(C_PROGRAM, &[]);
        let written = String::from_utf8_lossy(&output.stdout);
        topic.same(
            &C_PROGRAM,
            "written",
            (&*written, output.status.success()),
            ("c: linked, known answers hold\n", true),
        );
    });
    checks.topic("press from C", "planner", press);
    checks.topic("shut unit, from C and Rust", "planner", shut);
    checks.topic("evening's change, from C and Rust", "planner", |topic| changes(topic, EVENINGS, "evening"));
    checks.topic("job handed on, from C and Rust", "planner", |topic| changes(topic, HANDED_ON, "handed_on"));
    checks.topic("documentation examples", "planner", documentation);
    checks.topic("refusals in words", "planner", words);
}

/// What a program does with some words.
fn output(program: &str, words: &[&str]) -> Output {
    Command::new(program).args(words).output().expect("the program starts")
}

/// The program writes the unit and group lines of the example's report.
fn press(topic: &mut Topic) {
    let report = std::fs::read_to_string("examples/press.report").expect("the example is read");
    let lines = report.split_once('\n').expect("the report has lines").1;
    let run = output(PRESS, &[]);
    topic.same(&PRESS, "written", (String::from_utf8_lossy(&run.stdout), run.status.success()), (lines.into(), true));
}

/// Both programs write what the example's file has, which has the lines of the example's report in it.
fn shut(topic: &mut Topic) {
    let [written, report] =
        ["shut.txt", "off-shut.report"].map(|name| std::fs::read_to_string(format!("examples/{name}")).expect(name));
    topic.holds(&written, "the report's lines", written.contains(&report));
    for program in SHUT {
        let run = output(program, &[]);
        let found = (String::from_utf8_lossy(&run.stdout), run.status.success());
        topic.same(&program, "written", found, (written.as_str().into(), true));
    }
}

/// Both programs write what the example's file has, and a wrong call gets one line and a status.
fn changes(topic: &mut Topic, programs: [&str; 2], name: &str) {
    let expected = std::fs::read_to_string(format!("examples/{name}.txt")).expect("the example is read");
    let job = "examples/evening-before.job";
    let wrong: [&[&str]; 7] = [
        &[],
        &["examples/none.job", "4", "20000"],
        &[job, "0", "20000"],
        &[job, "7", "20000"],
        &[job, "4", "many"],
        &["examples/refused/09-twice.job", "1", "1"],
        &["examples/refused/11-total.job", "1", "1"],
    ];
    for program in programs {
        let right = output(program, &[job, "4", "20000"]);
        topic.same(&program, "written", String::from_utf8_lossy(&right.stdout), expected.as_str().into());
        topic.holds(&program, "status of a right call", right.status.success());
        for words in wrong {
            let Output { status, stdout, stderr } = output(program, words);
            let lines = [stdout, stderr].concat().iter().filter(|&&byte| byte == b'\n').count();
            topic.same(&(program, words), "status and lines of a wrong call", (status.success(), lines), (false, 1));
        }
    }
}

/// The documentation examples, each by cargo's line for it.
fn documentation(topic: &mut Topic) {
    let package = ["--manifest-path", "bindings/rust/Cargo.toml", "--target-dir", "tests/target"];
    let run = output("cargo", &[&["test", "--doc", "--release", "--offline"][..], &package].concat());
    let text = String::from_utf8_lossy(&run.stdout);
    for line in text.lines().filter(|line| line.starts_with("test ") && line.contains(" ... ")) {
        topic.holds(&line, "example", line.ends_with(" ... ok"));
    }
    topic.holds(&text, "all examples", run.status.success());
}

/// The package and the header say a refusal in the words of the user guide's table, which has those that a job can cause,
/// and the package says what to do about it in the words of the same row.
fn words(topic: &mut Topic) {
    let guide = std::fs::read_to_string("docs/USER-GUIDE.md").expect("the guide is read").replace('`', "");
    let header = String::from_utf8_lossy(&output(C_WORDS, &[]).stdout).into_owned();
    let header: Vec<&str> = header.lines().collect();
    topic.same(&C_WORDS, "words for numbers that refuse nothing", (header.len(), header[0]), (18, "not refused"));
    for number in 1..=17 {
        let refusal = Refusal { number: if number == 17 { u64::MAX } else { number }, place: 0 };
        topic.same(&number, "the header's words", header[number as usize], refusal.reason());
    }
    for number in 2..=15 {
        let refusal = Refusal { number, place: 0 };
        let start = format!("| {number} | {} | ", refusal.reason());
        let row = guide.lines().find(|line| line.starts_with(&start)).unwrap_or_default();
        topic.holds(&start, "in the user guide", !row.is_empty());
        topic.holds(&(row, refusal.advice()), "what to do", row.contains(&format!(" | {}", refusal.advice())));
    }
}
