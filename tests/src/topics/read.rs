//! Reading job texts: sound jobs, damaged ones, and the edges of every range from both sides.

use super::filler_table;
use crate::calls::{self, Read};
use crate::cases::damage::damage;
use crate::cases::jobs::{print_job, sound, MIDDLE, TINY, WIDE};
use crate::check::{Checks, Topic};
use crate::independent::reader::Job;
use crate::{independent, rebuild};
use danivomel::{Counts, Range, Refusal};
use std::fmt::{Debug, Formatter};

/// A text that is printed as text where a case fails.
pub struct Shown<'a>(pub &'a [u8]);

impl Debug for Shown<'_> {
    fn fmt(&self, out: &mut Formatter<'_>) -> std::fmt::Result {
        write!(out, "{:?}", String::from_utf8_lossy(self.0))
    }
}

/// Tries a planner's reading.
pub fn run(checks: &mut Checks, who: &str, read: Read) {
    checks.topic("read, sound jobs", who, |topic| sound_jobs(topic, read));
    checks.topic("read, damaged jobs", who, |topic| damaged_jobs(topic, read));
    checks.topic("read, edges", who, |topic| edges(topic, read));
}

/// Compares a planner's reading with the independent one: whole answers and tables.
pub fn compare(checks: &mut Checks, who: &str, read: Read) {
    checks.topic("read, against the independent planner", who, |topic| {
        for _ in 0..20_000 {
            let text = damaged(topic, 3);
            let expected = attempt(independent::read, &text, 64);
            topic.same(&Shown(&text), "answer and table", attempt(read, &text, 64), expected);
        }
    });
}

/// Reads into a table of a given length; the answer and the table after the call.
fn attempt(read: Read, text: &[u8], length: usize) -> (Result<Counts, Refusal>, Vec<Range>) {
    let mut table = filler_table(length);
    let answer = read(text, &mut table);
    (answer, table)
}

/// Checks a refusal, and that the table kept its values.
pub fn refused(topic: &mut Topic, read: Read, text: &[u8], number: u64, place: u64) {
    let found = attempt(read, text, 256);
    topic.same(&Shown(text), "refusal", found, (Err(Refusal { number, place }), filler_table(256)));
}

/// Checks that a text is read as a number of units and groups.
pub fn accepted(topic: &mut Topic, read: Read, text: &[u8], units: usize, groups: usize) {
    let (answer, table) = attempt(read, text, 256);
    topic.same(&Shown(text), "counts", answer, Ok(Counts { units, groups }));
    topic.same(&Shown(text), "entries past the units", &table[units..], &filler_table(256)[units..]);
}

/// Jobs that were printed: the ranges come back, and what is past them keeps its value; a table too short is 1.
fn sound_jobs(topic: &mut Topic, read: Read) {
    for round in 0..3_000 {
        let size = [TINY, MIDDLE, WIDE][round % 3];
        let job = sound(&mut topic.random, size);
        let text = print_job(&job);
        let units = job.lows.len();
        let mut filled = filler_table(units + 2);
        filled[..units].copy_from_slice(&calls::table(&job.lows, &job.highs));
        let counts = Counts { units, groups: job.groups.len() };
        topic.same(&job, "answer and table", attempt(read, &text, units + 2), (Ok(counts), filled));
        let short = attempt(read, &text, units - 1);
        let refusal = Err(Refusal { number: 1, place: 0 });
        topic.same(&job, "table too short", short, (refusal, filler_table(units - 1)));
    }
}

/// The text of a sound job with one to so many damages, now and then none.
pub fn damaged(topic: &mut Topic, most: u64) -> Vec<u8> {
    let size = topic.random.one_of(&[TINY, MIDDLE]);
    let mut text = print_job(&sound(&mut topic.random, size));
    for _ in 0..topic.random.between(0, most) {
        damage(&mut topic.random, &mut text);
    }
    text
}

/// Damaged jobs, held to the reader that prints each line anew.
fn damaged_jobs(topic: &mut Topic, read: Read) {
    for _ in 0..20_000 {
        let text = damaged(topic, 3);
        rebuilt(topic, read, &text);
    }
}

/// Holds a text's reading to the reader that prints each line anew.
pub fn rebuilt(topic: &mut Topic, read: Read, text: &[u8]) {
    match rebuild::read(text) {
        Ok((units, groups)) => accepted(topic, read, text, units as usize, groups as usize),
        Err(Refusal { number, place }) => refused(topic, read, text, number, place),
    }
}

/// Lines repeated, with a first part and a last one.
fn repeated(first: &str, line: &str, times: usize, last: &str) -> Vec<u8> {
    format!("{first}{}{last}", line.repeat(times)).into_bytes()
}

/// Every refusal's edge from both sides.
fn edges(topic: &mut Topic, read: Read) {
    let (unit, group) = ("(unit 0 9)\n", "(group 5 (dev any) (spread any) (of 1))\n");
    accepted(topic, read, &repeated("", unit, 256, ""), 256, 0);
    refused(topic, read, &repeated("", unit, 257, ""), 6, 257);
    accepted(topic, read, &repeated(unit, group, 64, ""), 1, 64);
    refused(topic, read, &repeated(unit, group, 65, ""), 6, 66);
    let all: Vec<String> = (1..=64).map(|number| number.to_string()).collect();
    let wide = format!("(group 5 (dev any) (spread any) (of {}))\n", all.join(" "));
    let units = unit.repeat(64);
    accepted(topic, read, &repeated(&units, &wide, 63, ""), 64, 63);
    accepted(topic, read, &repeated(&units, &wide, 64, ""), 64, 64);
    let one_more = wide.replace(" 64)", " 64 64)");
    refused(topic, read, &repeated(&units, &wide, 63, &one_more), 6, 128);
    for (line, number) in number_edges() {
        let text = format!("{unit}{line}").into_bytes();
        let is_unit = usize::from(line.starts_with("(unit"));
        match number {
            0 => accepted(topic, read, &text, 1 + is_unit, 1 - is_unit),
            _ => refused(topic, read, &text, number, 2),
        }
    }
    length_edges(topic, read);
    shut_edges(topic, read);
    refused(topic, read, b"", 10, 0);
    refused(topic, read, b"\n", 15, 1);
    refused(topic, read, b"(unit 0 9)", 13, 1);
    refused(topic, read, b"(unit 0 9)\n(unit 0 9)", 13, 2);
    refused(topic, read, group.as_bytes(), 8, 1);
}

/// Shut units count as units, and as members; a job of them alone is not empty.
fn shut_edges(topic: &mut Topic, read: Read) {
    let (unit, shut, group) = ("(unit 0 9)\n", "(shut)\n", "(group 0 (dev any) (spread any) (of 1 2))\n");
    accepted(topic, read, shut.as_bytes(), 1, 0);
    accepted(topic, read, &repeated("", shut, 256, ""), 256, 0);
    accepted(topic, read, &repeated(unit, shut, 255, ""), 256, 0);
    accepted(topic, read, &repeated(shut, unit, 255, group), 256, 1);
    refused(topic, read, &repeated("", shut, 257, ""), 6, 257);
    refused(topic, read, &repeated("", unit, 256, shut), 6, 257);
    refused(topic, read, &repeated("", shut, 256, unit), 6, 257);
    refused(topic, read, format!("{shut}{unit}{group}{shut}").as_bytes(), 5, 4);
    let all: Vec<String> = (1..=64).map(|number| number.to_string()).collect();
    let wide = format!("(group 0 (dev any) (spread any) (of {}))\n", all.join(" "));
    let units = shut.repeat(64);
    accepted(topic, read, &repeated(&units, &wide, 64, ""), 64, 64);
    refused(topic, read, &repeated(&units, &wide, 63, &wide.replace(" 64)", " 64 1)")), 6, 128);
    for (members, number) in [("1", 0), ("2 1", 0), ("3", 8), ("0", 8), ("1 1", 9)] {
        let text = format!("{shut}{unit}(group 0 (dev any) (spread any) (of {members}))\n");
        match number {
            0 => accepted(topic, read, text.as_bytes(), 2, 1),
            _ => refused(topic, read, text.as_bytes(), number, 3),
        }
    }
    let (unpaired, unnamed) = (["(shut\n", "shut)\n", "(shut))\n"], ["shut\n", "( shut)\n", "(shuts)\n"]);
    for (number, lines) in [(13, &["(shut)"][..]), (14, &unpaired), (15, &unnamed), (3, &["(shut )\n", "(shut) \n"])] {
        for line in lines {
            refused(topic, read, format!("{unit}{line}").as_bytes(), number, 2);
        }
    }
}

/// Second lines with a number at or next to an edge, and their refusal, 0 where there is none.
fn number_edges() -> Vec<(String, u64)> {
    let huge = "9".repeat(400);
    let shares =
        [("0", 0), ("1000000", 0), ("1000001", 4), ("18446744073709551616", 4), (&huge, 4), ("00", 3), ("01", 3)];
    let totals = [("0", 0), ("256000000", 0), ("256000001", 4), (&huge, 4), ("any", 3), ("05", 3)];
    let deviations = [("0", 0), ("100000000000", 0), ("100000000001", 4), (&huge, 4), ("anyy", 3), ("an", 3), ("", 3)];
    let spreads = [("0", 0), ("100000000000000000", 0), ("100000000000000001", 4), (&huge, 4), ("ANY", 3)];
    let pairs =
        [("any", 0), ("0", 0), ("100000000000", 0), ("100000000001", 4), (&huge, 4), ("05", 3), ("any ", 3), ("", 3)];
    let members =
        [("1", 0), ("0", 8), ("2", 8), ("18446744073709551617", 8), (&huge, 8), ("1 1", 9), ("", 3), ("01", 3)];
    let forms: [(&str, &[(&str, u64)]); 7] = [
        ("(unit # 1000000)\n", &shares),
        ("(unit 0 #)\n", &shares),
        ("(group # (dev any) (spread any) (of 1))\n", &totals),
        ("(group 5 (dev #) (spread any) (of 1))\n", &deviations),
        ("(group 5 (dev any) (spread #) (of 1))\n", &spreads),
        ("(group 5 (dev any) (spread any) (pairs #) (of 1))\n", &pairs),
        ("(group 5 (dev any) (spread any) (of #))\n", &members),
    ];
    let line = |form: &str, edge: &(&str, u64)| (form.replace('#', edge.0), edge.1);
    forms.iter().flat_map(|(form, edges)| edges.iter().map(|edge| line(form, edge))).collect()
}

/// A text of 65,536 bytes, and one byte more.
fn length_edges(topic: &mut Topic, read: Read) {
    let line = |length: usize| format!("(unit 0 {})\n", "9".repeat(length - 10)).into_bytes();
    refused(topic, read, &line(65_536), 4, 1);
    refused(topic, read, &line(65_537), 2, 0);
    refused(topic, read, &[b'x'; 65_537], 2, 0);
    refused(topic, read, &[b'x'; 65_536], 13, 1);
    let job = Job { lows: vec![0; 256], highs: vec![1_000_000; 256], marks: vec![0; 256], groups: vec![] };
    let text = print_job(&job);
    topic.holds(&job, "a job of units alone is short", text.len() < 65_536);
    accepted(topic, read, &text, 256, 0);
}
