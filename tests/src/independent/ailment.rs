//! What ails a line that is not in the form: refusals 13, 14 and 15, which are tried ahead of 3.

/// A line without its byte 10, or the first of 13, 14 and 15 that applies to it.
pub fn check_line(ended: &[u8]) -> Result<&[u8], u64> {
    let line = ended.strip_suffix(b"\n").ok_or(13u64)?;
    if !is_paired(line) {
        Err(14)
    } else if !is_begun(line) {
        Err(15)
    } else {
        Ok(line)
    }
}

/// Whether the closing brackets outnumber the opening ones at no byte, and are as many at the end.
fn is_paired(line: &[u8]) -> bool {
    let mut open = 0usize;
    for &byte in line {
        match byte {
            b'(' => open += 1,
            b')' if open == 0 => return false,
            b')' => open -= 1,
            _ => {}
        }
    }
    open == 0
}

/// Whether the first byte is an opening bracket, and the whole run of letters straight after it one of the three words.
fn is_begun(line: &[u8]) -> bool {
    line.strip_prefix(b"(").map_or(false, |rest| {
        let letters = rest.iter().take_while(|byte| byte.is_ascii_lowercase()).count();
        matches!(&rest[..letters], b"unit" | b"group" | b"shut")
    })
}
