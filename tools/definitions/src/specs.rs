//! Reads a file of antt by its layout: what it uses and what it declares.

use crate::file::{full_lines, Declaration, File, Kind, Use};
use crate::words::{words, Word};

/// A section `module _ (..) where`: how far its items are indented, and its parameters with those of the sections around it.
struct Section {
    indent: usize,
    parameters: Vec<Word>,
}

struct Reader<'a> {
    lines: Vec<&'a str>,
    sections: Vec<Section>,
    /// Where the comment above the next item starts.
    comment: Option<usize>,
    file: File,
}

/// Reads the text of a file.
pub fn read(path: &str, module: &str, text: &str) -> File {
    let sections = vec![Section { indent: 0, parameters: Vec::new() }];
    let mut reader = Reader { lines: text.lines().collect(), sections, comment: None, file: File::new(path, module) };
    let mut at = 0;
    while at < reader.lines.len() {
        at = reader.item(at);
    }
    reader.file
}

fn indent(line: &str) -> usize {
    line.len() - line.trim_start().len()
}

impl Reader<'_> {
    /// Reads the item at this line, and says where the next one may start.
    fn item(&mut self, at: usize) -> usize {
        let line = self.lines[at].trim();
        if line.is_empty() {
            self.comment = None;
            return at + 1;
        }
        if line.starts_with("--") {
            self.comment.get_or_insert(at);
            return at + 1;
        }
        let depth = indent(self.lines[at]);
        while self.sections.len() > 1 && depth < self.sections[self.sections.len() - 1].indent {
            self.sections.pop();
        }
        let end = if line.starts_with("module ") { self.section(at) } else { self.declare(at) };
        self.comment = None;
        end
    }

    /// The end of the item at this line: the lines after it that are indented further belong to it.
    fn end(&self, at: usize) -> usize {
        let depth = indent(self.lines[at]);
        let after = self.lines.iter().enumerate().skip(at + 1).filter(|(_, line)| !line.trim().is_empty());
        let last = after.take_while(|(_, line)| indent(line) > depth).last();
        last.map_or(at + 1, |(last, _)| last + 1)
    }

    /// Opens a section; its items are indented as the first line after its head is.
    fn section(&mut self, at: usize) -> usize {
        let head = self.lines[at..].iter().take_while(|line| !line.trim_end().ends_with(" where")).count() + 1;
        let end = (at + head).min(self.lines.len());
        let inside = self.lines[end..].iter().find(|line| !line.trim().is_empty());
        let mut parameters = self.parameters();
        parameters.extend(words(&self.lines[at..end]));
        self.sections.push(Section { indent: inside.map_or(0, |line| indent(line)), parameters });
        end
    }

    fn parameters(&self) -> Vec<Word> {
        self.sections[self.sections.len() - 1].parameters.clone()
    }

    /// Takes up the item at this line, and says where it ends.
    fn declare(&mut self, at: usize) -> usize {
        let end = self.end(at);
        let item = words(&self.lines[at..end]);
        let is_mark = |word: &Word| ["abbrev", "unfoldable", "axiom", "pub"].contains(&word.text.as_str());
        let marks = item.iter().take_while(|word| is_mark(word)).count();
        let public = item[..marks].iter().any(|mark| mark.is("pub"));
        let opens = item[..marks].iter().any(|mark| mark.is("abbrev") || mark.is("unfoldable"));
        let rest = &item[marks..];
        match rest.first().map_or("", |word| word.text.as_str()) {
            "use" => self.file.uses.push(Use::read(&after_use(&self.lines[at..end]))),
            "mod" | "infix" | "infixl" | "infixr" | "ruleset" | "" => (),
            "unfolding" => self.go_on(at, end, &[]),
            "record" | "data" => self.add(Kind::Definition, public, at, end, rest),
            _ if marks == 0 && !is_signature(rest) => self.go_on(at, end, rest),
            _ if opens => self.add(Kind::Definition, public, at, end, rest),
            _ => self.add(Kind::Law, public, at, end, rest),
        }
        end
    }

    /// A clause, or a line `unfolding`, of the declaration above.
    fn go_on(&mut self, at: usize, end: usize, clause: &[Word]) {
        let lines = full_lines(&self.lines[at..end]);
        if let Some(declaration) = self.file.declarations.last_mut() {
            declaration.lines += lines;
            declaration.body.extend_from_slice(clause);
        }
    }

    /// A declaration by its signature; a record or data type has its members behind `where`.
    fn add(&mut self, kind: Kind, public: bool, at: usize, end: usize, signature: &[Word]) {
        let is_data = signature[0].is("data");
        let name = if is_data || signature[0].is("record") { 1 } else { 0 };
        let place = signature.iter().position(|word| word.is("where")).unwrap_or(signature.len());
        let (names, body) = members(&signature[(place + 1).min(signature.len())..]);
        let mut statement = self.parameters();
        statement.extend_from_slice(&signature[name..place]);
        self.file.declarations.push(Declaration {
            name: signature[name].text.clone(),
            kind,
            public,
            line: at + 1,
            lines: full_lines(&self.lines[self.comment.unwrap_or(at)..end]),
            statement,
            body,
            constructors: if is_data { names } else { Vec::new() },
        });
    }
}

/// The text of a `use` after that word.
fn after_use(lines: &[&str]) -> String {
    let text = lines.iter().map(|line| line.trim()).collect::<Vec<_>>().join(" ");
    text.trim_start_matches("pub ").trim_start_matches("use ").to_string()
}

/// Whether a name, with its levels in braces or without, is followed by a colon.
fn is_signature(item: &[Word]) -> bool {
    let levels = item.iter().position(|word| word.is("}")).filter(|_| item.len() > 1 && item[1].is("{"));
    item.get(levels.unwrap_or(0) + 1).map_or(false, |word| word.is(":"))
}

/// The names of the fields or constructors and the words of their types; each starts in the column of the first.
fn members(words: &[Word]) -> (Vec<String>, Vec<Word>) {
    let column = words.first().map_or(0, |word| word.column);
    let (mut names, mut types) = (Vec::new(), Vec::new());
    let mut in_type = false;
    for word in words {
        in_type = if word.column == column { false } else { in_type || word.is(":") };
        if in_type {
            types.push(word.clone());
        } else if !word.is("pub") {
            names.push(word.text.clone());
        }
    }
    (names, types)
}
