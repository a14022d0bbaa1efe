//! What ails a line: 13, 14 and 15, tried in this order ahead of 3, on known lines, with every byte, with many brackets,
//! on the longest lines and on all short texts; and that they come in the place of 3 alone.

use super::filler_table;
use super::read::{damaged, rebuilt, refused, Shown};
use crate::calls::Read;
use crate::check::{Checks, Topic};
use crate::rebuild;
use danivomel::Refusal;

/// Tries what a planner's reading says of lines that are not in the form.
pub fn run(checks: &mut Checks, who: &str, read: Read) {
    checks.topic("read, known ailments", who, |topic| known(topic, read));
    checks.topic("read, ailments with every byte", who, |topic| {
        every_byte(topic, read);
        all_bytes(topic, read);
    });
    checks.topic("read, brackets in every number", who, |topic| brackets(topic, read));
    checks.topic("read, ailments of the longest line", who, |topic| longest(topic, read));
    checks.topic("read, all short texts", who, |topic| short_texts(topic, read));
    checks.topic("read, in the place of 3 alone", who, |topic| only_three(topic, read));
}

/// Lines that are not in the form, without their byte 10, and their refusals.
const KNOWN: [(u64, &[u8]); 51] = [
    (14, b"(unit 0 1"),
    (14, b"unit 0 1)"),
    (14, b"((unit 0 1)"),
    (14, b"(unit 0 1))"),
    (14, b")(unit 0 1)"),
    (14, b")(unit 0 1"),
    (14, b")unit 0 1("),
    (14, b"(unit 0 1))("),
    (14, b"(unit 0 1)()("),
    (14, b"(unit 0) 1)"),
    (14, b"(shut"),
    (14, b"shut)"),
    (14, b"(shut)\r("),
    (14, b"(\x00"),
    (14, b"\xff)"),
    (14, b")("),
    (14, b"(()"),
    (14, b"())(()"),
    (14, b"(group 1 (dev any) (spread any) (of 1)"),
    (14, b"(group 1 (dev any) (spread any) (of 1)))"),
    (14, b"(group 1)) (dev any) (spread any) ((of 1)"),
    (15, b""),
    (15, b"\r"),
    (15, b" (unit 0 1)"),
    (15, b"\t(unit 0 1)"),
    (15, b"\xef\xbb\xbf(unit 0 1)"),
    (15, b"# a comment"),
    (15, b"unit 0 1"),
    (15, b"()"),
    (15, b"()(unit 0 1)"),
    (15, b"((unit 0 1))"),
    (15, b"(units 0 1)"),
    (15, b"(uni 0 1)"),
    (15, b"(Unit 0 1)"),
    (15, b"(uniT 0 1)"),
    (15, b"( unit 0 1)"),
    (15, b"(0unit 0 1)"),
    (15, b"(unitunit 0 1)"),
    (15, b"(dev any)"),
    (15, b"(stand 0 1)"),
    (3, b"(unit5 0 1)"),
    (3, b"(unitT 0 1)"),
    (3, b"(unit\t0 1)"),
    (3, b"(unit\x00 0 1)"),
    (3, b"(unit(0 1))"),
    (3, b"(unit 0 1) "),
    (3, b"(unit 0 1)\r"),
    (3, b"(unit)(0 1)"),
    (3, b"(group)"),
    (3, b"(group 1 )dev any( (spread any) (of 1))"),
    (3, b"(shut 0)"),
];

/// Known lines: alone, ahead of sound lines, ahead of a line without byte 10; and without byte 10, which is 13 whatever
/// else ails them.
fn known(topic: &mut Topic, read: Read) {
    let (units, group) = (&b"(unit 0 9)\n(shut)\n"[..], &b"(group 0 (dev any) (spread any) (of 2))\n"[..]);
    for (number, line) in KNOWN {
        refused(topic, read, &[line, b"\n"].concat(), number, 1);
        refused(topic, read, &[units, line, b"\n", group].concat(), number, 3);
        refused(topic, read, &[units, group, line, b"\n"].concat(), number, 4);
        for (_, last) in KNOWN {
            refused(topic, read, &[units, line, b"\n", last].concat(), number, 3);
        }
        if !line.is_empty() {
            refused(topic, read, line, 13, 1);
            refused(topic, read, &[units, group, line].concat(), 13, 4);
        }
    }
    refused(topic, read, b"(unit 9 0)", 13, 1);
    refused(topic, read, &[units, group, b"(unit 0 1000001)"].concat(), 13, 4);
    refused(topic, read, &"(shut)\n".repeat(257).as_bytes()[..257 * 7 - 1], 13, 257);
}

/// Every byte but 10 in lines: a bracket is 14, and any other byte has one refusal where it is a letter, and one where
/// it is not.
fn every_byte(topic: &mut Topic, read: Read) {
    let places: [(&str, &str, u64, u64); 12] = [
        ("", "", 15, 15),
        ("", "(unit 0 1)", 15, 15),
        ("(", ")", 15, 15),
        ("(", "unit 0 1)", 15, 15),
        ("(un", "it 0 1)", 15, 15),
        ("(unit", " 0 1)", 15, 3),
        ("(shut", ")", 15, 3),
        ("(group", ")", 15, 3),
        ("(unit 0", " x)", 3, 3),
        ("(unit 0 1)", "", 3, 3),
        ("(shut)", "", 3, 3),
        ("(group 1 (dev any) (spread any) (of", "))", 3, 3),
    ];
    for (front, back, letter, other) in places {
        for byte in (0..=255).filter(|&byte| byte != 10) {
            let number = match byte {
                40 | 41 => 14,
                97..=122 => letter,
                _ => other,
            };
            let line = [front.as_bytes(), &[byte], back.as_bytes()].concat();
            refused(topic, read, &[&b"(shut)\n"[..], &line, b"\n(shut)\n"].concat(), number, 2);
            refused(topic, read, &[&b"(shut)\n"[..], &line].concat(), 13, 2);
        }
    }
}

/// All bytes but 10 in one line, rising and falling.
fn all_bytes(topic: &mut Topic, read: Read) {
    let rising: Vec<u8> = (0..=255).filter(|&byte| byte != 10).collect();
    let falling: Vec<u8> = rising.iter().rev().copied().collect();
    for (front, all, back, number) in [
        ("", &rising, "\n", 15),
        ("", &falling, "\n", 14),
        ("(shut ", &rising, ")\n", 3),
        ("(shut) ", &falling, "\n", 14),
        ("(shut ", &falling, ")\n", 3),
        ("(shut ", &rising, "\n", 14),
        ("(shut ", &rising, ")", 13),
    ] {
        refused(topic, read, &[front.as_bytes(), all, back.as_bytes()].concat(), number, 1);
    }
}

/// Brackets that open and close in numbers around those that a byte can count, inside one another and in turn.
fn brackets(topic: &mut Topic, read: Read) {
    for count in [1, 2, 3, 127, 128, 255, 256, 257, 511, 512, 4_096, 16_384] {
        for (more, number) in [(0, 15), (1, 14), (256, 14)] {
            let (open, closed) = ("(".repeat(count), ")".repeat(count));
            for text in [
                format!("{open}{closed}{}\n", "(".repeat(more)),
                format!("{open}{}{closed}\n", ")".repeat(more)),
                format!("{}{}\n", "()".repeat(count), ")".repeat(more)),
            ] {
                refused(topic, read, text.as_bytes(), number, 1);
            }
            let inside = format!("(shut{open}{}{closed})\n", "(".repeat(more));
            refused(topic, read, inside.as_bytes(), if number == 15 { 3 } else { number }, 1);
        }
        refused(topic, read, format!("{}{}\n", ")".repeat(count), "(".repeat(count)).as_bytes(), 14, 1);
        refused(topic, read, format!("(shut{})\n", ")(".repeat(count)).as_bytes(), 3, 1);
    }
}

/// Texts of 65,536 bytes and one line, and of one byte more.
fn longest(topic: &mut Topic, read: Read) {
    let filled = |front: &str, filling: &str, back: &str| {
        let room = 65_536 - front.len() - back.len();
        [front, &filling.repeat(room)[..room], back].concat()
    };
    for (filling, number) in [("(", 14), (")", 14), ("x", 15), (" ", 15), ("0", 15), ("\r", 15)] {
        refused(topic, read, filled("", filling, "").as_bytes(), 13, 1);
        refused(topic, read, filled("", filling, "\n").as_bytes(), number, 1);
        refused(topic, read, (filled("", filling, "") + "\n").as_bytes(), 2, 0);
        refused(topic, read, (filled("", filling, "\n") + "\n").as_bytes(), 2, 0);
        refused(topic, read, filled("(shut)\n", filling, "").as_bytes(), 13, 2);
    }
    for (front, filling, back, number) in [
        ("(unit", "x", ")\n", 15),
        ("(", "x", "unit)\n", 15),
        ("(unit ", "x", ")\n", 3),
        ("(unit", " ", "0 1)\n", 3),
        ("(unit", " ", "0 1)", 13),
        ("(unit", " ", "0 1\n", 14),
        ("(unit 0 ", "9", ")\n", 4),
        ("(unit 0 ", "9", ")", 13),
        ("(unit ", "()", ")\n", 3),
        ("(unit ", "()", "0)\n", 14),
        ("(unit ", ")(", ")\n", 3),
        ("(unit ", ")(", "0)\n", 14),
    ] {
        refused(topic, read, filled(front, filling, back).as_bytes(), number, 1);
    }
}

/// All strings of bytes of an alphabet, up to a length.
fn strings(alphabet: &[u8], most: usize) -> Vec<Vec<u8>> {
    let mut all = vec![vec![]];
    let mut last = 0;
    for _ in 0..most {
        let length = all.len();
        for index in last..length {
            for &byte in alphabet {
                all.push([&all[index][..], &[byte]].concat());
            }
        }
        last = length;
    }
    all
}

/// Texts of up to five bytes, and a bracket with a word and up to four more, or six, held to the reader that prints each
/// line anew.
fn short_texts(topic: &mut Topic, read: Read) {
    for text in strings(b"() ua0\n\r", 5) {
        rebuilt(topic, read, &text);
    }
    let words = [("unit", 6), ("group", 4), ("shut", 4), ("units", 4), ("uni", 4), ("Unit", 4), ("", 4)];
    for (word, most) in words {
        for tail in strings(b"() 0s\n", most) {
            rebuilt(topic, read, &[&b"("[..], word.as_bytes(), &tail].concat());
        }
    }
}

/// Damaged jobs have the answer that the form of their lines gives, place and all, but that 13, 14 and 15 may stand where
/// that has 3; each of the four comes often.
fn only_three(topic: &mut Topic, read: Read) {
    let mut met = [0; 16];
    for _ in 0..20_000 {
        let text = damaged(topic, 6);
        let found = read(&text, &mut filler_table(64)).map(|counts| (counts.units as u64, counts.groups as u64));
        if let Some(count) = found.err().and_then(|refusal| met.get_mut(refusal.number as usize)) {
            *count += 1;
        }
        let by_form = found.map_err(|Refusal { number, place }| match number {
            13..=15 => Refusal { number: 3, place },
            _ => Refusal { number, place },
        });
        topic.same(&Shown(&text), "answer by form", by_form, rebuild::read_by_form(&text));
    }
    for number in [13, 14, 15, 3] {
        topic.holds(&(number, met), "often met", met[number] > 500);
    }
}
