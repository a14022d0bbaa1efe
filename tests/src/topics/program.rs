//! The programs themselves: what they write for the examples and for texts that are too long, and for random jobs what
//! the independent planner's programs do; and jobs that go through both.

use super::read::Shown;
use super::write::long_job;
use crate::cases::damage::damage;
use crate::cases::jobs::{print_job, sound, MIDDLE, TINY};
use crate::check::{Checks, Topic};
use crate::independent::{self, GREATEST_SHARE};
use std::fs::File;
use std::io::Write;
use std::os::unix::io::OwnedFd;
use std::os::unix::net::UnixStream;
use std::path::PathBuf;
use std::process::{Command, Stdio};

/// A program, which tests/run builds.
pub struct Program {
    pub path: &'static str,
    name: &'static str,
    /// What the independent planner's writes for a text.
    pub plain: fn(&[u8]) -> Vec<u8>,
}

/// The program that writes reports.
pub const SETTLE: Program = Program { path: "target/bin/settle", name: "settle", plain: independent::program };
/// The program that writes settled jobs.
pub const HAND_ON: Program = Program { path: "target/bin/hand_on", name: "hand_on", plain: independent::hand_on };

/// Tries the programs, on the examples too.
pub fn run(checks: &mut Checks) {
    checks.topic("program settle, examples", "planner", reports);
    checks.topic("program hand_on, examples", "planner", handed_on);
    for program in [SETTLE, HAND_ON] {
        let mut topic = |what: &str, run: fn(&mut Topic, &Program)| {
            checks.topic(&format!("program {}, {what}", program.name), "planner", |topic| run(topic, &program));
        };
        topic("texts too long", too_long);
        topic("against the independent planner", random_jobs);
        topic("failed reads and writes", failures);
    }
    checks.topic("program settle, what hand_on writes", "planner", settled_again);
}

/// What a program writes for a text.
fn written(program: &Program, text: &[u8]) -> Vec<u8> {
    let mut child =
        Command::new(program.path).stdin(Stdio::piped()).stdout(Stdio::piped()).spawn().expect("the program starts");
    // A text of more than 65,536 bytes is refused before its end, so the program may close its input first.
    let _ = child.stdin.take().expect("the program has an input").write_all(text);
    child.wait_with_output().expect("the program ends").stdout
}

/// The jobs of the examples, by their paths.
pub fn examples() -> Vec<(PathBuf, Vec<u8>)> {
    let mut jobs = vec![];
    for folder in ["examples", "examples/refused"] {
        for entry in std::fs::read_dir(folder).expect("the examples are there") {
            let path = entry.expect("an example").path();
            if path.extension() == Some("job".as_ref()) {
                let text = std::fs::read(&path).expect("the job is read");
                jobs.push((path, text));
            }
        }
    }
    jobs.sort();
    jobs
}

/// Each job of the examples with its report.
fn reports(topic: &mut Topic) {
    for (job, text) in examples() {
        // A report that is missing is compared as an empty one, which no program writes.
        let report = std::fs::read(job.with_extension("report")).unwrap_or_default();
        topic.same(&job, "report", Shown(&written(&SETTLE, &text)), Shown(&report));
        topic.same(&job, "report by the independent planner", Shown(&(SETTLE.plain)(&text)), Shown(&report));
    }
}

/// Each job of the examples handed on; that of the evening is an example itself. And a long job that is at rest.
fn handed_on(topic: &mut Topic) {
    for (job, text) in examples() {
        topic.same(&job, "written", Shown(&written(&HAND_ON, &text)), Shown(&(HAND_ON.plain)(&text)));
    }
    let [before, handed] =
        ["before", "handed"].map(|name| std::fs::read(format!("examples/evening-{name}.job")).unwrap_or_default());
    topic.same(&"evening-before.job", "written", Shown(&written(&HAND_ON, &before)), Shown(&handed));
    let long = print_job(&long_job(GREATEST_SHARE, 64 * GREATEST_SHARE));
    topic.same(&"a long job", "written", Shown(&written(&HAND_ON, &long)), Shown(&long));
}

/// Sound unit lines of one byte more than a text may have, and of many more.
fn too_long(topic: &mut Topic, program: &Program) {
    let lines = "(unit 0 10)\n".repeat(6_000);
    for length in [65_537, lines.len()] {
        let text = &lines.as_bytes()[..length];
        topic.same(&length, "written", Shown(&written(program, text)), Shown(b"(refused 2 0)\n"));
    }
}

/// A random job's text.
pub fn random_text(topic: &mut Topic) -> Vec<u8> {
    let size = topic.random.one_of(&[TINY, MIDDLE]);
    print_job(&sound(&mut topic.random, size))
}

/// Random jobs, sound and damaged.
fn random_jobs(topic: &mut Topic, program: &Program) {
    for round in 0..400 {
        let mut text = random_text(topic);
        if round % 2 == 1 {
            damage(&mut topic.random, &mut text);
        }
        topic.same(&Shown(&text), "written", written(program, &text), (program.plain)(&text));
    }
}

/// Random jobs handed on settle in one pass to the same lines, and are handed on as they stand; refusals are the same.
fn settled_again(topic: &mut Topic) {
    for _ in 0..200 {
        let text = random_text(topic);
        let (report, handed) = (written(&SETTLE, &text), written(&HAND_ON, &text));
        let case = Shown(&text);
        if report.starts_with(b"(refused ") {
            topic.same(&case, "refusal", Shown(&handed), Shown(&report));
            continue;
        }
        let first = report.iter().position(|&byte| byte == b'\n').map_or(0, |end| end + 1);
        let again = [&b"(settled 1)\n"[..], &report[first..]].concat();
        topic.same(&case, "report of what is written", Shown(&written(&SETTLE, &handed)), Shown(&again));
        topic.same(&case, "handed on again", Shown(&written(&HAND_ON, &handed)), Shown(&handed));
    }
}

/// A failed read or write: nothing on standard output, and one line on standard error that names the stream.
fn failures(topic: &mut Topic, program: &Program) {
    let job = "examples/works.job";
    let command = || Command::new(program.path);
    let [input, output] = ["input", "output"].map(|stream| format!("{}: standard {stream}: ", program.name));
    let directory = File::open("/").expect("a directory is opened");
    fails(topic, "a directory as the input", command().stdin(directory), &input);
    let cut = Stdio::from(cut_after(&std::fs::read(job).expect("the job is read")));
    fails(topic, "an input that fails after a whole job", command().stdin(cut), &input);
    for (case, job) in [("an output without room", job), ("one for a refusal", "examples/refused/09-twice.job")] {
        let whole = File::open(job).expect("the job is opened");
        let full = File::create("/dev/full").expect("/dev/full is opened");
        fails(topic, case, command().stdin(whole).stdout(full), &output);
    }
}

/// Checks that the program writes one line to standard error, which starts so, and nothing to an output that is caught.
fn fails(topic: &mut Topic, case: &str, program: &mut Command, start: &str) {
    let output = program.output().expect("the program runs");
    let told = String::from_utf8_lossy(&output.stderr);
    topic.same(&case, "standard output", output.stdout, Vec::new());
    topic.holds(
        &case,
        "the line on standard error",
        told.starts_with(start) && told.find('\n') == Some(told.len() - 1),
    );
}

/// An input that gives these bytes and then fails: the far end of a socket closes with a byte unread, which resets it.
pub fn cut_after(text: &[u8]) -> OwnedFd {
    let (mut near, mut far) = UnixStream::pair().expect("a pair of sockets");
    near.write_all(b"x").expect("a byte that stays unread");
    far.write_all(text).expect("the text is sent");
    drop(far);
    near.into()
}
