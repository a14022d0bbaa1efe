//! The words of antt: names with their dots, brackets, separators.

#[derive(Clone, Copy, Debug, PartialEq, Eq)]
pub enum Kind {
    /// A name, or names joined by dots.
    Name,
    /// A record's field behind a dot.
    Field,
    /// A bracket, a separator, a dot or a quoted text.
    Other,
}

#[derive(Clone, Debug)]
pub struct Word {
    pub kind: Kind,
    pub text: String,
    pub column: usize,
}

impl Word {
    pub fn is(&self, text: &str) -> bool {
        self.text == text
    }
}

/// The words of these lines, without comments.
pub fn words(lines: &[&str]) -> Vec<Word> {
    let mut found = Vec::new();
    for line in lines {
        let letters: Vec<char> = line.chars().collect();
        let mut at = 0;
        while at < letters.len() {
            if letters[at].is_whitespace() {
                at += 1;
                continue;
            }
            if letters[at..].starts_with(&['-', '-']) {
                break;
            }
            let (kind, next) = word(&letters, at);
            let text = letters[at..next].iter().filter(|letter| !"«»".contains(**letter)).collect();
            found.push(Word { kind, text, column: at });
            at = next;
        }
    }
    found
}

/// The kind of the word that starts here, and where it ends.
fn word(letters: &[char], at: usize) -> (Kind, usize) {
    match letters[at] {
        '"' => (Kind::Other, quoted(letters, at)),
        '.' if in_name(letters, at + 1) => (Kind::Field, path(letters, at + 1)),
        _ if in_name(letters, at) => (Kind::Name, path(letters, at)),
        _ => (Kind::Other, at + 1),
    }
}

fn in_name(letters: &[char], at: usize) -> bool {
    letters.get(at).map_or(false, |letter| !letter.is_whitespace() && !"(){}.;,@\"".contains(*letter))
}

/// Where the names that start here and are joined by dots end.
fn path(letters: &[char], mut at: usize) -> usize {
    while in_name(letters, at) || (letters.get(at) == Some(&'.') && in_name(letters, at + 1)) {
        at += 1;
    }
    at
}

/// Where the text quoted from here ends.
fn quoted(letters: &[char], start: usize) -> usize {
    let mut at = start + 1;
    while at < letters.len() && letters[at] != '"' {
        at += if letters[at] == '\\' { 2 } else { 1 };
    }
    (at + 1).min(letters.len())
}
