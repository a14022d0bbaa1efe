//! Writing jobs: known texts, the edges of every refusal, texts whose unit lines are replaced, and the longest text;
//! each with the whole buffer and the table after the call.

use super::read::Shown;
use super::settle::WORKED;
use super::{filler_table, table_of, with_spare};
use crate::calls::Write;
use crate::cases::damage::damage;
use crate::cases::jobs::{print_job, sound, MIDDLE, TINY, WIDE};
use crate::cases::tables::lent;
use crate::check::{Checks, Topic};
use crate::independent::reader::{Group, Job};
use crate::independent::{self, GREATEST_DEVIATION, GREATEST_PAIRS, GREATEST_SHARE, GREATEST_SPREAD, GREATEST_TOTAL};
use crate::rebuild;
use danivomel::{Limit, Limits, Range, Refusal, WRITTEN_BYTES};

/// What a writing should answer: the bytes of the text, or a refusal.
type Expected = Result<Vec<u8>, Refusal>;

/// A text, a table's ranges as pairs, and what is written of them.
pub type Known<'a> = (&'a str, &'a [(u64, u64)], &'a str);

/// Who says what a writing should answer, for a text, a table and a buffer of so many bytes.
type Judge = fn(&[u8], &[Range], usize) -> Expected;

/// Tries a planner's writing.
pub fn run(checks: &mut Checks, who: &str, write: Write) {
    checks.topic("write, known jobs", who, |topic| known(topic, write));
    checks.topic("write, edges", who, |topic| edges(topic, write));
    checks.topic("write, unit lines replaced", who, |topic| random_jobs(topic, write, rebuild::write, 3_000));
    checks.topic("write, the longest text", who, |topic| longest(topic, write));
}

/// Compares a planner's writing with the independent one.
pub fn compare(checks: &mut Checks, who: &str, write: Write) {
    checks.topic("write, against the independent planner", who, |topic| {
        random_jobs(topic, write, independent::write::written, 6_000);
    });
}

/// Bytes that no text has, to see that a byte kept its value.
fn filled(length: usize) -> Vec<u8> {
    (0..length).map(|index| 0x80 | index as u8).collect()
}

/// Writes into a buffer of so many bytes; compares the answer, the whole buffer and the table.
fn check(topic: &mut Topic, write: Write, text: &[u8], lent: &[Range], length: usize, expected: Expected) {
    let (table, mut buffer, mut left) = (lent.to_vec(), filled(length), filled(length));
    let found = write(text, &table, &mut buffer);
    if let Ok(written) = &expected {
        left[..written.len()].copy_from_slice(written);
    }
    let case = (Shown(text), lent, length);
    topic.same(&case, "answer", found, expected.map(|written| written.len()));
    topic.same(&case, "buffer after the call", Shown(&buffer), Shown(&left));
    topic.same(&case, "table after the call", &table[..], lent);
}

/// Checks a text that is written, into buffers with room and without.
fn check_room(topic: &mut Topic, write: Write, text: &[u8], table: &[Range], written: &[u8]) {
    let exact = written.len();
    for length in [exact, exact + 1, WRITTEN_BYTES] {
        check(topic, write, text, table, length, Ok(written.to_vec()));
    }
    for length in [0, 1, exact / 2, exact - 1] {
        check(topic, write, text, table, length, Err(Refusal { number: 1, place: 0 }));
    }
}

/// The specification's worked job and others; what has no plan is written too.
fn known(topic: &mut Topic, write: Write) {
    let worked = |units: &str| WORKED.replacen(&"(unit 0 10)\n".repeat(3), units, 1);
    let cases: [Known; 6] = [
        (WORKED, &[(5, 6), (4, 5), (3, 4)], &worked("(unit 5 6)\n(unit 4 5)\n(unit 3 4)\n")),
        (WORKED, &[(0, 10); 3], WORKED),
        (WORKED, &[(7, 10), (0, 1_000_000), (0, 0)], &worked("(unit 7 10)\n(unit 0 1000000)\n(unit 0 0)\n")),
        ("(unit 3 8)\n", &[(0, 100_000)], "(unit 0 100000)\n"),
        ("(unit 100000 1000000)\n", &[(0, 0)], "(unit 0 0)\n"),
        (
            "(unit 0 9)\n(unit 0 9)\n(unit 0 9)\n(group 99 (dev any) (spread 0) (of 3 1 2))\n",
            &[(1, 1), (22, 22), (0, 333)],
            "(unit 1 1)\n(unit 22 22)\n(unit 0 333)\n(group 99 (dev any) (spread 0) (of 3 1 2))\n",
        ),
    ];
    for (text, table, written) in cases {
        check_room(topic, write, text.as_bytes(), &table_of(table), written.as_bytes());
        check_room(topic, write, text.as_bytes(), &with_spare(table), written.as_bytes());
    }
}

/// Every number of a text at its edges, and every refusal of a table from both sides.
fn edges(topic: &mut Topic, write: Write) {
    for (total, dev, spread) in
        [("0", "0", "0"), ("256000000", "100000000000", "100000000000000000"), ("9", "any", "any")]
    {
        for pairs in ["", " (pairs any)", " (pairs 0)", " (pairs 7)", " (pairs 100000000000)"] {
            let text = format!("(unit 9 10)\n(group {total} (dev {dev}) (spread {spread}){pairs} (of 1))\n");
            check_room(topic, write, text.as_bytes(), &table_of(&[(9, 10)]), text.as_bytes());
        }
    }
    let text = "(unit 0 9)\n".repeat(256).into_bytes();
    let sound = with_spare(&[(7, 7); 256]);
    check(topic, write, &text, &sound, WRITTEN_BYTES, Ok("(unit 7 7)\n".repeat(256).into_bytes()));
    for entries in [0, 1, 255] {
        check(topic, write, &text, &sound[..entries], WRITTEN_BYTES, Err(Refusal { number: 1, place: 0 }));
    }
    for unit in [0, 1, 255] {
        for (low, high, number) in [
            (0, GREATEST_SHARE + 1, 4),
            (GREATEST_SHARE + 1, GREATEST_SHARE, 4),
            (u64::MAX, u64::MAX, 4),
            (0, 1 << 32, 4),
            (GREATEST_SHARE, GREATEST_SHARE - 1, 7),
            (1, 0, 7),
        ] {
            let mut table = sound.clone();
            table[unit] = Range { low, high };
            let refusal = Refusal { number, place: unit as u64 + 1 };
            check(topic, write, &text, &table, WRITTEN_BYTES, Err(refusal));
        }
    }
}

/// Random jobs, sound and damaged, with tables of all kinds and buffers with and without room.
fn random_jobs(topic: &mut Topic, write: Write, judge: Judge, rounds: usize) {
    for round in 0..rounds {
        let job = sound(&mut topic.random, [TINY, MIDDLE, TINY, MIDDLE, WIDE][round % 5]);
        let table = lent(&mut topic.random, &job);
        let mut text = print_job(&job);
        if topic.random.once_in(3) {
            for _ in 0..topic.random.between(1, 3) {
                damage(&mut topic.random, &mut text);
            }
        }
        let exact = judge(&text, &table, WRITTEN_BYTES).map_or(text.len(), |written| written.len());
        let shorter = topic.random.index(exact + 1);
        for length in [0, shorter, exact.saturating_sub(1), exact, exact + 1, text.len(), WRITTEN_BYTES] {
            check(topic, write, &text, &table, length, judge(&text, &table, length));
        }
    }
}

/// A job with one share for every unit and as many groups, members and digits as there can be, but for the total's.
pub fn long_job(share: u64, total: u64) -> Job {
    let limits = Limits {
        deviation: Limit::AtMost(GREATEST_DEVIATION),
        spread: Limit::AtMost(GREATEST_SPREAD),
        pairs: Limit::AtMost(GREATEST_PAIRS),
    };
    let group = |first: usize| Group { total, limits, says_pairs: true, members: (first..first + 64).collect() };
    Job {
        lows: vec![share; 256],
        highs: vec![share; 256],
        marks: vec![0; 256],
        groups: (99..99 + 64).map(group).collect(),
    }
}

/// 256 unit lines of 23 bytes, 64 group lines of 91 and 4,096 members of 4: no text is longer.
fn longest(topic: &mut Topic, write: Write) {
    let [short, long] = [0, GREATEST_SHARE].map(|share| print_job(&long_job(share, GREATEST_TOTAL)));
    topic.same(&"the longest text", "bytes", long.len(), 256 * 23 + 64 * 91 + 4_096 * 4);
    topic.same(&"the longest text", "bytes by the package", long.len(), WRITTEN_BYTES);
    let mut table = table_of(&[(GREATEST_SHARE, GREATEST_SHARE); 256]);
    for text in [&short, &long] {
        check_room(topic, write, text, &table, &long);
    }
    table.extend(filler_table(2));
    check(topic, write, &short, &table, 65_536, Ok(long.clone()));
    check_room(topic, write, &long, &with_spare(&[(0, 0); 256]), &short);
}
