//! The order of refusals in a job text: every set of faults on one line, and every pair of faults on two lines.

use super::read::{rebuilt, refused};
use crate::calls::Read;
use crate::check::{Checks, Topic};

/// Tries the order of a planner's refusals while reading.
pub fn run(checks: &mut Checks, who: &str, read: Read) {
    checks.topic("read, sets of faults on a unit line", who, |topic| unit_sets(topic, read));
    checks.topic("read, sets of faults on a shut unit's line", who, |topic| shut_sets(topic, read));
    checks.topic("read, sets of faults on a group line", who, |topic| group_sets(topic, read));
    checks.topic("read, the first bad line decides", who, |topic| line_pairs(topic, read));
    checks.topic("read, breaches of form", who, |topic| forms(topic, read));
}

/// Whether a fault is in a set.
fn has(set: u32, fault: u32) -> bool {
    set >> fault & 1 == 1
}

/// The refusal of a set's first fault.
fn first_of(set: u32, numbers: &[u64]) -> u64 {
    numbers[set.trailing_zeros() as usize]
}

/// The refusals of the faults that a line of any form can have, in the order in which they are looked for: byte 10 left
/// out, a closing bracket ahead of all, the last one left out, a longer word, a space ahead of it, one behind the items.
const AILMENTS: [u64; 6] = [13, 14, 14, 15, 15, 3];

/// The refusals of these faults, and of a form's own.
fn with_ailments(own: &[u64]) -> Vec<u64> {
    [&AILMENTS[..], own].concat()
}

/// The faults of a set that are a form's own.
fn own_of(set: u32) -> u32 {
    set >> AILMENTS.len()
}

/// A line of a word and items, with those faults of a set that a line of any form can have.
fn ailing(set: u32, word: &str, items: &str) -> String {
    let put = |fault: u32, bytes: &'static str| if has(set, fault) { bytes } else { "" };
    let leave = |fault: u32, bytes: &'static str| if has(set, fault) { "" } else { bytes };
    let (front, space, letter) = (put(1, ")"), put(4, " "), put(3, "s"));
    let (gap, bracket, end) = (put(5, " "), leave(2, ")"), leave(0, "\n"));
    format!("{front}({space}{word}{letter}{items}{gap}{bracket}{end}")
}

/// Unit lines with each set of the faults 13, 14, 15, 3, 4, 5, 6 and 7.
fn unit_sets(topic: &mut Topic, read: Read) {
    let numbers = with_ailments(&[3, 4, 4, 5, 6, 7]);
    for set in 1u32..1 << numbers.len() {
        let own = own_of(set);
        let mut text = "(unit 0 9)\n".repeat(if has(own, 4) { 256 } else { 1 });
        if has(own, 3) {
            text.push_str("(group 5 (dev any) (spread any) (of 1))\n");
        }
        let line = text.lines().count() as u64 + 1;
        let low = if has(own, 1) {
            "1000002"
        } else if has(own, 5) {
            "8"
        } else {
            "0"
        };
        let high = if has(own, 2) { "1000001" } else { "7" };
        let gap = if has(own, 0) { "  " } else { " " };
        text.push_str(&ailing(set, "unit", &format!("{gap}{low} {high}")));
        refused(topic, read, text.as_bytes(), first_of(set, &numbers), line);
    }
}

/// Shut units' lines with each set of the faults 13, 14, 15, 3, 5 and 6, after unit lines of both forms.
fn shut_sets(topic: &mut Topic, read: Read) {
    let numbers = with_ailments(&[3, 5, 6]);
    for set in 1u32..1 << numbers.len() {
        let own = own_of(set);
        for before in ["(unit 0 9)\n", "(shut)\n"] {
            let mut text = before.repeat(if has(own, 2) { 256 } else { 1 });
            if has(own, 1) {
                text.push_str("(group 0 (dev any) (spread any) (of 1))\n");
            }
            let line = text.lines().count() as u64 + 1;
            text.push_str(&ailing(set, "shut", if has(own, 0) { " 0 0" } else { "" }));
            refused(topic, read, text.as_bytes(), first_of(set, &numbers), line);
        }
    }
}

/// Group lines with each set of the faults 13, 14, 15, 3, 4, 6, 8 and 9.
fn group_sets(topic: &mut Topic, read: Read) {
    let numbers = with_ailments(&[4, 4, 4, 4, 6, 6, 8, 8, 9]);
    let all: Vec<String> = (1..=64).map(|number| number.to_string()).collect();
    // a pairs limit beyond its range goes with 64 short groups, and not with 4,096 memberships, which take long to read
    let tried = |set: &u32| !(has(own_of(*set), 3) && has(own_of(*set), 5));
    for set in (1u32..1 << numbers.len()).filter(tried) {
        let own = own_of(set);
        let mut text = "(unit 0 9)\n".repeat(64);
        let members = if has(own, 5) { all.join(" ") } else { "1".to_string() };
        let groups = if has(own, 4) { 64 } else { 63 };
        text.push_str(&format!("(group 5 (dev any) (spread any) (of {members}))\n").repeat(groups));
        let total = if has(own, 0) { "256000001" } else { "5" };
        let dev = if has(own, 1) { "100000000001" } else { "7" };
        let spread = if has(own, 2) { "99999999999999999999" } else { "any" };
        let pairs = if has(own, 3) { "100000000001" } else { "100000000000" };
        let mut of = if has(own, 5) { all.join(" ") } else { "3 4".to_string() };
        for (fault, more) in [(5, " 63"), (6, " 0"), (7, " 65"), (8, " 4")] {
            if has(own, fault) && (fault != 5 || !has(own, 8)) {
                of.push_str(more);
            }
        }
        let limits = format!("(dev {dev}) (spread {spread}) (pairs {pairs})");
        text.push_str(&ailing(set, "group", &format!(" {total} {limits} (of {of})")));
        refused(topic, read, text.as_bytes(), first_of(set, &numbers), 64 + groups as u64 + 1);
    }
}

/// Bad lines after two units and a group that names both, each without its byte 10, and their refusals.
fn bad_lines() -> Vec<(u64, String)> {
    let group = |inner: &str| format!("(group {inner})");
    vec![
        (14, "(unit 0 1".to_string()),
        (14, ")shut(".to_string()),
        (15, String::new()),
        (15, "(units 0 1)".to_string()),
        (3, "(unit 1  2)".to_string()),
        (3, "(shut 0 0)".to_string()),
        (4, "(unit 0 1000001)".to_string()),
        (3, group("5 (dev any) (pairs any) (spread any) (of 1)")),
        (4, group("256000001 (dev any) (spread any) (of 1)")),
        (4, group("5 (dev any) (spread any) (pairs 100000000001) (of 1 0)")),
        (5, "(unit 0 9)".to_string()),
        (5, "(shut)".to_string()),
        (8, group("5 (dev any) (spread any) (of 1 0)")),
        (9, group("5 (dev any) (spread any) (of 1 2 1)")),
    ]
}

/// Two bad lines in either order, the second with its byte 10 and without: the first one's refusal comes, whatever its
/// number; and 2 hides both. A line without byte 10 is bad as the last one alone.
fn line_pairs(topic: &mut Topic, read: Read) {
    let opening = "(unit 0 9)\n(unit 0 9)\n(group 5 (dev any) (spread any) (of 1 2))\n";
    for (number, first) in bad_lines() {
        for (_, second) in bad_lines() {
            let unended = format!("{opening}{first}\n{second}");
            refused(topic, read, unended.as_bytes(), number, 4);
            let text = unended + "\n";
            refused(topic, read, text.as_bytes(), number, 4);
            let long = text + &"(unit 0 9)\n".repeat(6_000);
            refused(topic, read, long.as_bytes(), 2, 0);
            refused(topic, read, &long.as_bytes()[..long.len() - 1], 2, 0);
        }
        if !first.is_empty() {
            refused(topic, read, format!("{opening}{first}").as_bytes(), 13, 4);
        }
    }
    refused(topic, read, b"(unit 9 0)\n(unit 0 1000001)\n", 7, 1);
    refused(topic, read, b"(unit 0 1000001)\n(unit 9 0)\n", 4, 1);
    refused(topic, read, b"(shut)\n(unit 9 0)\n(shut 0)\n", 7, 2);
    refused(topic, read, b"(unit 9 0)\n(unit 9 0)", 7, 1);
}

/// Each byte of sound lines deleted, doubled, or replaced by a byte of each kind: all but a few are breaches of form.
fn forms(topic: &mut Topic, read: Read) {
    let lines = [
        "(unit 10 25)\n",
        "(shut)\n",
        "(group 30 (dev 41) (spread any) (of 1 2))\n",
        "(group 30 (dev any) (spread 56) (of 2))\n",
        "(group 30 (dev any) (spread any) (pairs 7) (of 2))\n",
        "(group 30 (dev any) (spread 5) (pairs any) (of 2 1))\n",
    ];
    let opening = "(unit 0 99)\n(unit 0 99)\n";
    for line in lines {
        for at in 0..line.len() {
            for changed in changes(line, at) {
                rebuilt(topic, read, &[opening.as_bytes(), &changed].concat());
            }
        }
    }
}

/// A line with one byte deleted, one put in, or one changed.
fn changes(line: &str, at: usize) -> Vec<Vec<u8>> {
    let bytes = line.as_bytes();
    let mut all = vec![[&bytes[..at], &bytes[at + 1..]].concat()];
    for byte in 0..=255 {
        all.push([&bytes[..at], &[byte], &bytes[at..]].concat());
        all.push([&bytes[..at], &[byte], &bytes[at + 1..]].concat());
    }
    all
}
