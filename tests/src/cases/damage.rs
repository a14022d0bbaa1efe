//! Damages to a job text: bytes deleted, inserted or changed, items doubled, zeros led in, lines moved, cut or joined,
//! numbers lengthened, brackets added, left out or exchanged, words misspelt, pairs limits put where they may stand and
//! where they may not, and the last line left without its byte 10.

use crate::random::Random;

/// Damages a text once.
pub fn damage(random: &mut Random, text: &mut Vec<u8>) {
    if text.is_empty() {
        text.push(random.between(0, 255) as u8);
        return;
    }
    let at = random.index(text.len());
    match random.between(0, 15) {
        0 => drop(text.remove(at)),
        1 => text.insert(at, telling_byte(random)),
        2 => text[at] = telling_byte(random),
        3 => text[at] = random.between(0, 255) as u8,
        4 => text.insert(at, text[at]),
        5 => before_number(random, text, b"0"),
        6 => before_number(random, text, b"98765432109876543210"),
        7 => swap_lines(random, text),
        8 => text.truncate(at),
        9 => text.insert(at, random.one_of(b"()")),
        10 => leave_bracket(random, text),
        11 => exchange_brackets(random, text),
        12 => misspell(random, text),
        13 => text.truncate(text.len() - usize::from(text.ends_with(b"\n"))),
        14 => put_pairs(random, text),
        _ => change_number(random, text),
    }
}

/// A byte of the form, or one next to its kinds.
fn telling_byte(random: &mut Random) -> u8 {
    random.one_of(b"() \n0123456789anydevunitgroupspreadpairsofshut/:`{'*!\x1f\t\r\x00\xff-AZ")
}

/// Where brackets stand.
fn brackets(text: &[u8]) -> Vec<usize> {
    (0..text.len()).filter(|&at| matches!(text[at], b'(' | b')')).collect()
}

/// Leaves a bracket out.
fn leave_bracket(random: &mut Random, text: &mut Vec<u8>) {
    let places = brackets(text);
    if !places.is_empty() {
        text.remove(random.one_of(&places));
    }
}

/// Exchanges a bracket with the next one.
fn exchange_brackets(random: &mut Random, text: &mut [u8]) {
    let places = brackets(text);
    if places.len() > 1 {
        let first = random.index(places.len() - 1);
        text.swap(places[first], places[first + 1]);
    }
}

/// Takes out, doubles or changes a letter, or makes it a capital one.
fn misspell(random: &mut Random, text: &mut Vec<u8>) {
    let letters: Vec<usize> = (0..text.len()).filter(|&at| text[at].is_ascii_lowercase()).collect();
    if letters.is_empty() {
        return;
    }
    let at = random.one_of(&letters);
    match random.between(0, 3) {
        0 => drop(text.remove(at)),
        1 => text.insert(at, text[at]),
        2 => text[at] = random.one_of(b"unitgroupsh"),
        _ => text[at].make_ascii_uppercase(),
    }
}

/// Puts a pairs limit, sound or not, ahead of an inner bracket or of a line's last one.
fn put_pairs(random: &mut Random, text: &mut Vec<u8>) {
    let ahead = |at: &usize| text[*at..].starts_with(b" (") || text[*at..].starts_with(b")\n");
    let places: Vec<usize> = (0..text.len()).filter(ahead).collect();
    if places.is_empty() {
        return;
    }
    let limits = [" (pairs any)", " (pairs 5)", " (pairs 100000000001)", " (pairs)", " (pairs  5)", " (pair 5)"];
    let at = random.one_of(&places);
    text.splice(at..at, random.one_of(&limits).bytes());
}

/// Where numbers start.
fn numbers(text: &[u8]) -> Vec<usize> {
    let digit = |at: usize| text[at].is_ascii_digit();
    (0..text.len()).filter(|&at| digit(at) && (at == 0 || !digit(at - 1))).collect()
}

/// Puts digits before a number.
fn before_number(random: &mut Random, text: &mut Vec<u8>, digits: &[u8]) {
    let starts = numbers(text);
    if starts.is_empty() {
        return;
    }
    let at = random.one_of(&starts);
    text.splice(at..at, digits.iter().copied());
}

/// Writes another number in the place of one.
fn change_number(random: &mut Random, text: &mut Vec<u8>) {
    let starts = numbers(text);
    if starts.is_empty() {
        return;
    }
    let at = random.one_of(&starts);
    let length = text[at..].iter().take_while(|byte| byte.is_ascii_digit()).count();
    let edges = [
        0,
        1,
        2,
        257,
        1_000_000,
        1_000_001,
        256_000_000,
        256_000_001,
        100_000_000_000,
        100_000_000_001,
        100_000_000_000_000_001,
        u64::MAX,
    ];
    let number = random.one_of(&edges).to_string();
    text.splice(at..at + length, number.bytes());
}

/// Puts one line in the place of another and that one in its place, or doubles a line.
fn swap_lines(random: &mut Random, text: &mut Vec<u8>) {
    let mut lines: Vec<Vec<u8>> = text.split_inclusive(|&byte| byte == b'\n').map(<[u8]>::to_vec).collect();
    let first = random.index(lines.len());
    let second = random.index(lines.len());
    if first == second {
        lines.insert(first, lines[first].clone());
    } else {
        lines.swap(first, second);
    }
    *text = lines.concat();
}
