//! Numbers and lists as the sheet shows them.

use super::picture::Letters;
use danivomel::Range;

/// A count with its noun.
pub fn counted(count: u64, one: &str, many: &str) -> String {
    format!("{} {}", grouped(count), if count == 1 { one } else { many })
}

/// How many units there are, and how many of them are shut.
pub fn units(count: usize, shut: usize) -> String {
    let of_them = if shut > 0 { format!(" ({shut} shut)") } else { String::new() };
    counted(count as u64, "unit", "units") + &of_them
}

/// A number with a comma ahead of each three digits.
pub fn grouped(number: u64) -> String {
    let digits = number.to_string();
    let ahead = |place: usize| place > 0 && (digits.len() - place) % 3 == 0;
    digits.char_indices().map(|(place, digit)| if ahead(place) { format!(",{digit}") } else { digit.into() }).collect()
}

/// A number with at most two decimals, and none where it is whole.
pub fn decimal(number: f64) -> String {
    let hundredths = (number * 100.0).round() as u64;
    let decimals = format!(".{:02}", hundredths % 100);
    grouped(hundredths / 100) + decimals.trim_end_matches('0').trim_end_matches('.')
}

/// A range, or the one number that it has.
pub fn range(range: Range) -> String {
    if range.low == range.high {
        grouped(range.low)
    } else {
        format!("{} to {}", grouped(range.low), grouped(range.high))
    }
}

/// Rising numbers, with the first and the last of each three or more in a row.
pub fn numbers(rising: &[usize]) -> String {
    let mut rows: Vec<(usize, usize)> = Vec::new();
    for &number in rising {
        match rows.last_mut() {
            Some(row) if row.1 + 1 == number => row.1 = number,
            _ => rows.push((number, number)),
        }
    }
    let shown = |&(first, last): &(usize, usize)| match last - first {
        0 => first.to_string(),
        1 => format!("{first}, {last}"),
        _ => format!("{first}–{last}"),
    };
    rows.iter().map(shown).collect::<Vec<_>>().join(", ")
}

/// A text broken at its spaces into lines of a width.
pub fn lines(text: &str, letters: Letters, width: f64) -> Vec<String> {
    let mut lines = vec![String::new()];
    for word in text.split(' ') {
        let line = &lines[lines.len() - 1];
        let longer = if line.is_empty() { word.into() } else { format!("{line} {word}") };
        if !line.is_empty() && letters.width(&longer) > width {
            lines.push(word.into());
        } else {
            lines.pop();
            lines.push(longer);
        }
    }
    lines
}
