//! Reads a source: its types, its functions with their contracts, and what it uses.

use crate::file::{full_lines, Declaration, File, Kind, Use};
use crate::words::{self, words, Word};

/// Reads the text of a source of a crate.
pub fn read(path: &str, module: &str, text: &str) -> File {
    let lines: Vec<&str> = text.lines().collect();
    let mut file = File::new(path, module);
    for (at, line) in lines.iter().enumerate() {
        if let Some(used) = line.strip_prefix("ghost use ") {
            file.uses.push(Use::read(used.trim_end_matches(';')));
        } else if let Some(used) = line.strip_prefix("use ") {
            file.uses.push(rust_use(used.trim_end_matches(';'), module));
        } else if let Some((kind, name)) = declared(line) {
            file.declarations.push(declaration(kind, name, &lines, at));
        }
    }
    file
}

/// `a::b::C` as the item C of the module a::b; `crate` is the module's own.
fn rust_use(text: &str, module: &str) -> Use {
    let own = module.split("::").next().unwrap_or("");
    let path = if text.starts_with("crate::") { text.replacen("crate", own, 1) } else { text.to_string() };
    let (path, name) = path.rsplit_once("::").unwrap_or((own, &path));
    let path = if path.contains("::") { path.to_string() } else { format!("{path}::") };
    Use { path, items: vec![(name.to_string(), name.to_string())], name: None }
}

/// The type or function that a line at the left edge declares.
fn declared(line: &str) -> Option<(Kind, &str)> {
    let rest = line.strip_prefix("pub ").unwrap_or(line);
    let rest = rest.strip_prefix("extern \"C\" ").unwrap_or(rest);
    let (word, rest) = rest.split_once(' ')?;
    let name = rest.split(|letter: char| !letter.is_alphanumeric() && letter != '_').next()?;
    match word {
        "struct" | "enum" => Some((Kind::Type, name)),
        "fn" => Some((Kind::Function, name)),
        _ => None,
    }
}

/// A type with its fields or variants, a function with its contract.
fn declaration(kind: Kind, name: &str, lines: &[&str], at: usize) -> Declaration {
    let above = lines[..at].iter().rev().take_while(|line| line.starts_with("//") || line.starts_with('#')).count();
    let inside = match kind {
        Kind::Function => lines[at..].iter().take_while(|line| **line != "{").count(),
        _ => lines[at..].iter().take_while(|line| !line.starts_with('}') && !line.ends_with(';')).count() + 1,
    };
    let own = &lines[at..(at + inside).min(lines.len())];
    let is_clause = |line: &&str| ["requires", "ensures"].iter().any(|word| line.trim_start().starts_with(word));
    let signature = own.iter().position(is_clause).unwrap_or(own.len());
    let mut statement = rust_words(&own[..signature]);
    let clauses: Vec<String> = own[signature..].iter().map(|line| unnamed(line)).collect();
    statement.extend(words(&clauses.iter().map(String::as_str).collect::<Vec<_>>()));
    Declaration {
        name: name.to_string(),
        kind,
        public: lines[at].starts_with("pub "),
        line: at + 1,
        lines: above + full_lines(own),
        statement,
        body: Vec::new(),
        constructors: Vec::new(),
    }
}

/// A clause without its name, which stands for no declaration.
fn unnamed(line: &str) -> String {
    let rest = line.trim_start();
    match rest.split_once(" {") {
        Some((head, body)) if ["requires ", "ensures "].iter().any(|word| head.starts_with(word)) => {
            format!("{} {{{body}", head.split(' ').next().unwrap_or(""))
        }
        _ => line.to_string(),
    }
}

/// The words of Rust in these lines, without comments.
fn rust_words(lines: &[&str]) -> Vec<Word> {
    let code = lines.iter().map(|line| line.split("//").next().unwrap_or(""));
    let parts = code.flat_map(|code| code.split(|letter: char| !letter.is_alphanumeric() && letter != '_'));
    let found = parts.filter(|part| !part.is_empty());
    found.map(|text| Word { kind: words::Kind::Name, text: text.to_string(), column: 0 }).collect()
}
