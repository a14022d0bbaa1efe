//! What is wrong with a line that is in the form: the very number, where a line has many. This explains 4, 7, 8 and 9 and
//! decides none of them.

use crate::job::{items, number};

/// The greatest share and total, and the greatest limit of each figure.
const GREATEST: [(&str, u64); 5] = [
    ("unit", 1_000_000),
    ("group", 256_000_000),
    ("dev", 100_000_000_000),
    ("spread", 100_000_000_000_000_000),
    ("pairs", 100_000_000_000),
];

/// What is found on a line, with the lines before it.
pub fn faults(before: &[&[u8]], line: &[u8], refused: u64) -> Vec<String> {
    let items = items(line.strip_suffix(b"\n").unwrap_or(line));
    let named = items.iter().position(|item| item == "of").map_or(&items[..0], |of| &items[of + 1..]);
    match refused {
        4 => beyond(&items),
        7 => vec![format!("the low {} is above the high {}", items[1], items[2])],
        8 => missing(before, named).into_iter().collect(),
        9 => twice(named).into_iter().collect(),
        _ => vec![],
    }
}

/// The numbers that are beyond their ranges, each after the word that it follows.
fn beyond(items: &[String]) -> Vec<String> {
    let mut found = vec![];
    let mut word = "";
    for item in items.iter().take_while(|item| *item != "of") {
        match GREATEST.iter().find(|(name, _)| *name == word) {
            Some((_, greatest)) if is_number(item) && number(item) > *greatest => {
                found.push(format!("{item} is above {greatest}"));
            }
            _ if !is_number(item) => word = item,
            _ => {}
        }
    }
    found
}

fn is_number(item: &str) -> bool {
    item.bytes().all(|byte| byte.is_ascii_digit())
}

/// The first unit number that no unit has.
fn missing(before: &[&[u8]], named: &[String]) -> Option<String> {
    let units = before.iter().filter(|line| line.starts_with(b"(unit") || line.starts_with(b"(shut")).count() as u64;
    let unit = named.iter().find(|unit| number(unit) < 1 || number(unit) > units)?;
    Some(format!("there is no unit {unit}: the job has {units} unit lines"))
}

/// The first unit number that was named before.
fn twice(named: &[String]) -> Option<String> {
    let place = (0..named.len()).find(|&place| named[..place].contains(&named[place]))?;
    Some(format!("unit {} is named twice", named[place]))
}
