//! A line of a job text, shown so that nothing of it stays unseen.

/// The forms of a job's lines.
const UNIT: &str = "(unit LOW HIGH)";
const GROUP: &str =
    "(group TOTAL (dev LIMIT) (spread LIMIT) (of UNIT UNIT ..)); (pairs LIMIT) may stand ahead of (of ..)";
const SHUT: &str = "(shut)";
const ALL: &str = "(unit LOW HIGH), (shut) or (group TOTAL (dev LIMIT) (spread LIMIT) (of UNIT UNIT ..))";

/// How much of a long line is shown: so many characters at its start, and so many at its end.
const START: usize = 600;
const END: usize = 100;

/// The form that a line seems to be meant for.
pub fn form(line: &[u8]) -> &'static str {
    let begins = |word: &str| line.starts_with(word.as_bytes());
    match () {
        () if begins("(unit") => UNIT,
        () if begins("(group") => GROUP,
        () if begins("(shut") => SHUT,
        () => ALL,
    }
}

/// A line as `cat -et` shows it: a tab is ^I, the end of a Windows line ^M, a byte beyond 127 has M- before it, and where
/// the end of the line may matter it is $. A long line is cut in its middle.
pub fn seen(line: &[u8], number: u64) -> String {
    let ended = matches!(number, 3 | 13..=15);
    let shown: String = line.iter().filter(|&&byte| ended || byte != b'\n').map(|&byte| seen_byte(byte)).collect();
    if shown.len() <= START + END {
        return shown;
    }
    let (start, end) = (&shown[..START], &shown[shown.len() - END..]);
    format!("{start} .. ({} characters are left out) .. {end}", shown.len() - START - END)
}

/// A byte as `cat -et` shows it.
pub fn seen_byte(byte: u8) -> String {
    match byte {
        b'\n' => "$".to_string(),
        0..=31 => format!("^{}", char::from(byte + 64)),
        127 => "^?".to_string(),
        128.. if byte == 128 + b'\n' => "M-^J".to_string(),
        128.. => format!("M-{}", seen_byte(byte - 128)),
        _ => char::from(byte).to_string(),
    }
}
