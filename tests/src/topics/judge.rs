//! The independent planner's own parts that no call shows: the groups it reads, and what its programs write.

use super::read::Shown;
use super::report::WORKED_REPORT;
use super::settle::{PAIRS, WORKED};
use crate::cases::damage::damage;
use crate::cases::jobs::{print_job, sound, MIDDLE, TINY};
use crate::check::{Checks, Topic};
use crate::independent::{hand_on, program, reader::read_job};

/// Tries the independent planner's reader and programs.
pub fn run(checks: &mut Checks) {
    checks.topic("reading and printing", "independent", printed);
    checks.topic("program", "independent", programs);
    checks.topic("program hand_on", "independent", handed_on);
}

/// What is printed reads as the same job, and whatever reads as a job is what is printed for it.
fn printed(topic: &mut Topic) {
    for _ in 0..20_000 {
        let size = topic.random.one_of(&[TINY, MIDDLE]);
        let job = sound(&mut topic.random, size);
        let mut text = print_job(&job);
        topic.same(&job, "read again", read_job(&text), Ok(job.clone()));
        damage(&mut topic.random, &mut text);
        if let Ok(other) = read_job(&text) {
            topic.same(&Shown(&text), "printed again", print_job(&other), text.clone());
        }
    }
}

/// The worked job's report, and refusal lines.
fn programs(topic: &mut Topic) {
    let long = "x".repeat(65_537);
    let worked = WORKED.replacen("0 10", "7 10", 1);
    let cases = [
        (WORKED, WORKED_REPORT),
        (PAIRS, "(settled 1)\n(unit 1 0 1)\n(unit 2 0 1)\n(unit 3 0 1)\n(group 1 0 2 1 1 (plan 1 0))\n(group 2 0 2 1 1 (plan 1 0))\n(group 3 0 2 1 1 (plan 1 0))\n"),
        (&worked, "(refused 12 1)\n"),
        ("(unit 4 9)\n(shut)\n", "(settled 1)\n(unit 1 4 9)\n(unit 2 0 0)\n"),
        ("", "(refused 10 0)\n"),
        ("(unit 0 10)", "(refused 13 1)\n"),
        ("(unit 0 10)\n(unit 0 10\n", "(refused 14 2)\n"),
        ("(stand 0 10)\n", "(refused 15 1)\n"),
        ("(unit 0 10 )\n", "(refused 3 1)\n"),
        ("(unit 0 1000001)\n", "(refused 4 1)\n"),
        (&long, "(refused 2 0)\n"),
    ];
    for (text, written) in cases {
        topic.same(
            &Shown(text.as_bytes()),
            "written",
            String::from_utf8_lossy(&program(text.as_bytes())),
            written.into(),
        );
    }
}

/// The worked job settled, jobs that are at rest as they stand, and the same refusal lines.
fn handed_on(topic: &mut Topic) {
    let worked = WORKED.replacen(&"(unit 0 10)\n".repeat(3), "(unit 5 6)\n(unit 4 5)\n(unit 3 4)\n", 1);
    let refused = WORKED.replacen("0 10", "7 10", 1);
    let cases = [
        (WORKED, &*worked),
        (&worked, &worked),
        (PAIRS, PAIRS),
        ("(unit 3 8)\n", "(unit 3 8)\n"),
        ("(shut)\n(unit 0 0)\n", "(shut)\n(unit 0 0)\n"),
        (&refused, "(refused 12 1)\n"),
        ("", "(refused 10 0)\n"),
        ("(unit 0 10)", "(refused 13 1)\n"),
        ("(unit 0 10)\n(unit 0 10\n", "(refused 14 2)\n"),
        ("(stand 0 10)\n", "(refused 15 1)\n"),
        ("(unit 0 10 )\n", "(refused 3 1)\n"),
    ];
    for (text, written) in cases {
        topic.same(&text, "written", String::from_utf8_lossy(&hand_on(text.as_bytes())), written.into());
    }
}
