//! The usual causes of a line that is not in the form, in the guide's words: what is found on the line, and its mend. They
//! explain a refusal and decide none.

use crate::job::items;
use crate::line::seen_byte;
use crate::table::counted;

/// A cause: whether a line has it, and what a person is told of it.
type Cause = (fn(&[u8]) -> bool, &'static str);

/// The byte order mark that some editors put at the start of a file.
const MARK: &[u8] = b"\xef\xbb\xbf";

/// A space that does not part two items, though it looks as if it did.
const NO_BREAK: &[u8] = b"\xc2\xa0";

/// All words of a job text.
const WORDS: [&str; 8] = ["unit", "shut", "group", "dev", "spread", "pairs", "of", "any"];

/// What can be told of every line, in the order in which it is looked for.
const EVERYWHERE: [Cause; 4] = [
    (is_wide, "two bytes for each letter (UTF-16): save the file as plain text, in UTF-8"),
    (|line| line.starts_with(MARK), "a byte order mark (M-oM-;M-?): save the file without it"),
    (|line| line.ends_with(b"\r"), "a Windows line end (^M): save the file with Unix line ends"),
    (|line| within(line).contains(&b'\r'), "an old line end within the line (^M): save the file with Unix line ends"),
];

/// What a line without any form can be.
const FORMLESS: [Cause; 2] =
    [(is_blank, "a blank line: take it out"), (is_comment, "a comment: take it out, a job has none")];

/// What can be wrong within a form.
const WITHIN: [Cause; 18] = [
    (|line| line.contains(&b'\t'), "a tab (^I): one space"),
    (|line| has(line, NO_BREAK), "a no-break space (M-BM- ): one plain space"),
    (|line| line.starts_with(b" "), "a space ahead of the first bracket: take it out"),
    (|line| within(line).ends_with(b" "), "a space after the last bracket: take it out"),
    (|line| has(line, b"  "), "two spaces between two items: exactly one"),
    (|line| has(line, b"( ") || has(line, b" )"), "a space inside a bracket: take it out"),
    (|line| next_to(line, ends_item, |byte| byte == b'('), "no space ahead of a bracket: exactly one"),
    (|line| next_to(line, is_letter, is_digit), "no space between a word and a number: exactly one"),
    (is_parted, "a comma or a point in a number: digits alone, as in 40000"),
    (|line| next_to(line, |byte| b"+-".contains(&byte), is_digit), "a sign: a number from 0 on"),
    (is_led_by_zero, "a leading zero: 5, not 05"),
    (|line| line.iter().any(u8::is_ascii_uppercase), "a capital letter: small letters alone"),
    (|line| has(line, b"(of)"), "no unit after of: at least one unit number"),
    (is_bare, "no limit after its word: a number, or any"),
    (is_doubled, "two lines in one: a line for each"),
    (is_turned, "(spread ..) ahead of (dev ..): first (dev ..), then (spread ..), then (of ..)"),
    (is_displaced, "(pairs ..) in a wrong place: right after (spread ..), ahead of (of ..)"),
    (|line| times(line, b"(pairs") > 1, "(pairs ..) twice: once at most"),
];

/// The causes that are found on a line.
pub fn causes(line: &[u8], number: u64) -> Vec<String> {
    let line = line.strip_suffix(b"\n").unwrap_or(line);
    let told = |causes: &[Cause], line: &[u8]| -> Vec<String> {
        causes.iter().filter(|(is_there, _)| is_there(line)).map(|(_, words)| words.to_string()).collect()
    };
    let mut found = told(&EVERYWHERE, line);
    let line = line.strip_prefix(MARK).unwrap_or(line);
    let formless = told(&FORMLESS, line);
    if !formless.is_empty() || is_wide(line) {
        return [found, formless].concat();
    }
    found.extend(told(&WITHIN, line));
    found.extend(foreign(line));
    found.extend(if number == 14 { brackets(line) } else { strange_word(line) });
    found.extend(if found.is_empty() { miscounted(line) } else { None });
    found
}

/// The line without its last byte where that is a Windows line end.
fn within(line: &[u8]) -> &[u8] {
    line.strip_suffix(b"\r").unwrap_or(line)
}

/// Whether some bytes are on a line.
fn has(line: &[u8], bytes: &[u8]) -> bool {
    times(line, bytes) > 0
}

/// How often some bytes are on a line.
fn times(line: &[u8], bytes: &[u8]) -> usize {
    line.windows(bytes.len()).filter(|part| *part == bytes).count()
}

/// Whether two kinds of bytes are next to each other on a line.
fn next_to(line: &[u8], first: fn(u8) -> bool, second: fn(u8) -> bool) -> bool {
    line.windows(2).any(|pair| first(pair[0]) && second(pair[1]))
}

fn is_digit(byte: u8) -> bool {
    byte.is_ascii_digit()
}

fn is_letter(byte: u8) -> bool {
    byte.is_ascii_alphabetic()
}

/// Whether an item can end with a byte.
fn ends_item(byte: u8) -> bool {
    byte.is_ascii_alphanumeric() || byte == b')'
}

/// Whether a file was saved with two bytes for each letter.
fn is_wide(line: &[u8]) -> bool {
    line.starts_with(b"\xff\xfe") || line.starts_with(b"\xfe\xff") || line.contains(&0)
}

fn is_blank(line: &[u8]) -> bool {
    line.iter().all(u8::is_ascii_whitespace)
}

fn is_comment(line: &[u8]) -> bool {
    let start = line.iter().position(|byte| !byte.is_ascii_whitespace()).unwrap_or(0);
    [&b"#"[..], b";", b"//", b"--"].iter().any(|sign| line[start..].starts_with(sign))
}

/// Whether a number has a comma, a point or the like between its digits.
fn is_parted(line: &[u8]) -> bool {
    line.windows(3).any(|part| is_digit(part[0]) && b",.'_".contains(&part[1]) && is_digit(part[2]))
}

/// Whether a number begins with a zero that is not all of it.
fn is_led_by_zero(line: &[u8]) -> bool {
    line.windows(3).any(|part| b" (".contains(&part[0]) && part[1] == b'0' && is_digit(part[2]))
}

/// Whether a second form begins on the line.
fn is_doubled(line: &[u8]) -> bool {
    let rest = line.get(1..).unwrap_or(&[]);
    ["(unit", "(group", "(shut"].iter().any(|form| has(rest, form.as_bytes()))
}

/// Whether the spread's limit is ahead of the deviation's.
fn is_turned(line: &[u8]) -> bool {
    let place = |word: &str| String::from_utf8_lossy(line).find(word);
    matches!((place("(spread"), place("(dev")), (Some(spread), Some(dev)) if spread < dev)
}

/// Whether a figure's word has no limit.
fn is_bare(line: &[u8]) -> bool {
    ["(dev)", "(spread)", "(pairs)"].iter().any(|word| has(line, word.as_bytes()))
}

/// Whether a pairs limit is on a line that is no group's, ahead of the spread's limit, or behind the units.
fn is_displaced(line: &[u8]) -> bool {
    let text = String::from_utf8_lossy(line);
    match text.find("(pairs") {
        None => false,
        Some(_) if !text.starts_with("(group") => true,
        Some(pairs) => text[pairs..].contains("(spread") || text[..pairs].contains("(of"),
    }
}

/// The first bytes that no form has and no other cause names.
fn foreign(line: &[u8]) -> Option<String> {
    let is_foreign = |byte: &u8| !(byte.is_ascii_alphanumeric() || b"() \t\r,.'_+-".contains(byte));
    let rest = &line[line.iter().position(is_foreign)?..];
    if rest.starts_with(NO_BREAK) {
        return None;
    }
    let shown: String = rest.iter().take_while(|byte| is_foreign(byte)).take(8).map(|&byte| seen_byte(byte)).collect();
    Some(format!("{shown}, which no line of a job has: take it out"))
}

/// How many brackets there are.
fn brackets(line: &[u8]) -> Option<String> {
    let count = |bracket: u8| line.iter().filter(|&&byte| byte == bracket).count();
    match (count(b'('), count(b')')) {
        (opening, closing) if opening == closing => Some("a closing bracket ahead of its opening one".to_string()),
        (opening, closing) => Some(format!("{opening} opening and {closing} closing brackets: as many of both")),
    }
}

/// The first word that no job has, but for capitals.
fn strange_word(line: &[u8]) -> Option<String> {
    let text = String::from_utf8_lossy(line).to_lowercase();
    let mut words = text.split(|letter: char| !letter.is_ascii_lowercase()).filter(|word| !word.is_empty());
    let strange = words.find(|word| !WORDS.contains(word))?;
    Some(format!("'{strange}', which is none of {}", WORDS.join(", ")))
}

/// What a line has too few or too many of.
fn miscounted(line: &[u8]) -> Option<String> {
    let items = items(line);
    match items.first()?.as_str() {
        "unit" if items.len() != 3 => {
            Some(format!("{}, where a low and a high belong", counted(items.len() - 1, "number", "numbers")))
        }
        "shut" if items.len() != 1 => Some("numbers after shut: it has none".to_string()),
        "group" => ["dev", "spread", "of"]
            .iter()
            .find(|&name| !items.iter().any(|item| item == name))
            .map(|name| format!("no ({name} ..)")),
        _ => None,
    }
}
