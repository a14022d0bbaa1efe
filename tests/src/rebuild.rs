//! A second reader of job texts, to judge the independent one: it takes a line's words apart loosely, prints the line
//! anew from them, and compares the bytes; what ails a line it asks only where this failed. And a second writer: it puts
//! other unit lines into a text, and leaves shut units and group lines as they stand.

use danivomel::{Range, Refusal};

/// A number as its digits; compared by length first, so of any size.
#[derive(Clone, Debug, PartialEq, Eq, PartialOrd, Ord)]
struct Digits(usize, String);

/// The digits of a number in base ten without a leading zero.
fn digits(word: &str) -> Option<Digits> {
    let sound =
        !word.is_empty() && word.bytes().all(|byte| byte.is_ascii_digit()) && (word == "0" || !word.starts_with('0'));
    sound.then(|| Digits(word.len(), word.to_string()))
}

/// Whether digits are beyond a number.
fn beyond(word: &Digits, greatest: u64) -> bool {
    let greatest = greatest.to_string();
    *word > Digits(greatest.len(), greatest)
}

/// What is known after some lines.
#[derive(Default)]
struct State {
    units: u64,
    groups: u64,
    memberships: usize,
}

/// How many units and groups a text has, or its refusal, of 2 to 10 and 13 to 15.
pub fn read(text: &[u8]) -> Result<(u64, u64), Refusal> {
    read_naming(text, ailment)
}

/// The same by the form of the lines alone, which has 3 in the place of 13, 14 and 15.
pub fn read_by_form(text: &[u8]) -> Result<(u64, u64), Refusal> {
    read_naming(text, |_| 3)
}

/// Reads a text with a refusal for lines that are not in the form, each with its byte 10 where it has one.
fn read_naming(text: &[u8], breach: fn(&[u8]) -> u64) -> Result<(u64, u64), Refusal> {
    if text.len() > 65_536 {
        return Err(Refusal { number: 2, place: 0 });
    }
    let mut state = State::default();
    let mut rest = text;
    let mut place = 0;
    while !rest.is_empty() {
        place += 1;
        let end = rest.iter().position(|&byte| byte == 10);
        let (line, after) = rest.split_at(end.map_or(rest.len(), |end| end + 1));
        let faults = end.and_then(|end| line_faults(&mut state, &line[..end])).unwrap_or_else(|| vec![breach(line)]);
        if let Some(number) = faults.into_iter().min() {
            return Err(Refusal { number, place });
        }
        rest = after;
    }
    if state.units == 0 {
        return Err(Refusal { number: 10, place: 0 });
    }
    Ok((state.units, state.groups))
}

/// What ails a line that is not in the form: 13, 14 or 15, and 3 where none of them does.
fn ailment(line: &[u8]) -> u64 {
    let ailments = [(13, !line.ends_with(&[10])), (14, !pairs_up(line)), (15, !starts_with_word(line)), (3, true)];
    present(&ailments)[0]
}

/// Whether as many brackets close as open, the first to close behind the first to open, the second behind the second,
/// and so on.
fn pairs_up(line: &[u8]) -> bool {
    let places = |bracket: u8| -> Vec<usize> { (0..line.len()).filter(|&at| line[at] == bracket).collect() };
    let (open, closed) = (places(40), places(41));
    open.len() == closed.len() && open.iter().zip(&closed).all(|(open, closed)| open < closed)
}

/// Whether the first byte is a bracket, and what follows it, cut at every byte but letters, has one of the words first.
fn starts_with_word(line: &[u8]) -> bool {
    let words = ["unit", "group", "shut"].map(str::as_bytes);
    line.split_first().map_or(false, |(&first, rest)| {
        let mut pieces = rest.split(|byte| !(97..=122).contains(byte));
        first == 40 && pieces.next().map_or(false, |piece| words.contains(&piece))
    })
}

/// A text with the ranges of a table in its unit lines, or the refusal of writing it to so many bytes.
pub fn write(text: &[u8], table: &[Range], buffer: usize) -> Result<Vec<u8>, Refusal> {
    let units = read(text)?.0 as usize;
    if units > table.len() {
        return Err(Refusal { number: 1, place: 0 });
    }
    let mut lines: Vec<Vec<u8>> = text.split_inclusive(|&byte| byte == 10).map(<[u8]>::to_vec).collect();
    range_fault(&lines, &table[..units])?;
    for (line, range) in lines.iter_mut().zip(&table[..units]).filter(|(line, _)| *line != SHUT_LINE) {
        *line = format!("(unit {} {})\n", range.low, range.high).into_bytes();
    }
    let whole = lines.concat();
    if whole.len() > buffer {
        return Err(Refusal { number: 1, place: 0 });
    }
    Ok(whole)
}

/// The line of a shut unit.
const SHUT_LINE: &[u8] = b"(shut)\n";

/// Refusal 4 at the first range that has it; where none has, 7 likewise. The first lines are those of the units.
fn range_fault(lines: &[Vec<u8>], ranges: &[Range]) -> Result<(), Refusal> {
    let mut crossed = None;
    for (index, (range, line)) in ranges.iter().zip(lines).enumerate() {
        let place = index as u64 + 1;
        if range.low.max(range.high) > 1_000_000 {
            return Err(Refusal { number: 4, place });
        }
        if range.low > range.high || (*line == SHUT_LINE && range.low + range.high > 0) {
            crossed = crossed.or(Some(Refusal { number: 7, place }));
        }
    }
    crossed.map_or(Ok(()), Err)
}

/// All refusals of a line that is in the form; nothing for one that is not.
fn line_faults(state: &mut State, line: &[u8]) -> Option<Vec<u64>> {
    let line = std::str::from_utf8(line).ok()?;
    let words: Vec<&str> = line.split(['(', ')', ' ']).filter(|word| !word.is_empty()).collect();
    match words[..] {
        ["unit", low, high] => unit_faults(state, line, low, high),
        ["shut"] => shut_faults(state, line),
        ["group", total, "dev", dev, "spread", spread, "pairs", pairs, "of", ref members @ ..] => {
            group_faults(state, line, [total, dev, spread, pairs], members)
        }
        ["group", total, "dev", dev, "spread", spread, "of", ref members @ ..] => {
            // the line again with the limit that it has without saying so
            let line = line.replacen(") (of ", ") (pairs any) (of ", 1);
            group_faults(state, &line, [total, dev, spread, "any"], members)
        }
        _ => None,
    }
}

/// All refusals of a unit line.
fn unit_faults(state: &mut State, line: &str, low: &str, high: &str) -> Option<Vec<u64>> {
    let (low, high) = (digits(low)?, digits(high)?);
    if line != format!("(unit {} {})", low.1, high.1) {
        return None;
    }
    state.units += 1;
    let faults = [
        (4, beyond(&low, 1_000_000) || beyond(&high, 1_000_000)),
        (5, state.groups > 0),
        (6, state.units > 256),
        (7, low > high),
    ];
    Some(present(&faults))
}

/// All refusals of the line of a shut unit.
fn shut_faults(state: &mut State, line: &str) -> Option<Vec<u64>> {
    if line != "(shut)" {
        return None;
    }
    state.units += 1;
    Some(present(&[(5, state.groups > 0), (6, state.units > 256)]))
}

/// All refusals of a group line, whose amounts are its total and its three limits.
fn group_faults(state: &mut State, line: &str, amounts: [&str; 4], members: &[&str]) -> Option<Vec<u64>> {
    let [total, dev, spread, pairs] = amounts;
    let limit = |word: &str| if word == "any" { digits("0") } else { digits(word) };
    let (total, most_dev, most_spread, most_pairs) = (digits(total)?, limit(dev)?, limit(spread)?, limit(pairs)?);
    let numbers = members.iter().map(|word| digits(word)).collect::<Option<Vec<Digits>>>()?;
    let (limits, of) = (format!("(dev {dev}) (spread {spread}) (pairs {pairs})"), members.join(" "));
    if members.is_empty() || line != format!("(group {} {limits} (of {of}))", total.1) {
        return None;
    }
    state.groups += 1;
    state.memberships += members.len();
    let mut different = numbers.clone();
    different.sort();
    different.dedup();
    let faults = [
        (4, beyond(&total, 256_000_000)),
        (4, beyond(&most_dev, 100_000_000_000) || beyond(&most_spread, 100_000_000_000_000_000)),
        (4, beyond(&most_pairs, 100_000_000_000)),
        (6, state.groups > 64 || state.memberships > 4_096),
        (8, numbers.iter().any(|number| number.1 == "0" || beyond(number, state.units))),
        (9, different.len() < numbers.len()),
    ];
    Some(present(&faults))
}

/// The numbers of the faults that are there.
fn present(faults: &[(u64, bool)]) -> Vec<u64> {
    faults.iter().filter(|(_, there)| *there).map(|(number, _)| *number).collect()
}
