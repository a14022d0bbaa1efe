//! Counts and prints what is reached.

use crate::file::{Declaration, Kind};
use crate::reach::Reached;
use crate::tree::{Id, Tree};
use std::fmt::Write;

/// How many declarations, lines and files.
#[derive(Debug, Default, PartialEq, Eq)]
pub struct Count {
    pub declarations: usize,
    pub lines: usize,
    pub files: usize,
}

impl Count {
    pub fn say(&self, what: &str) -> String {
        format!("{} {what}, {} lines, {} files", self.declarations, self.lines, self.files)
    }

    /// The sentence of README.md: so many in all, and so many of them from the contracts.
    pub fn quoted(&self, contracts: &Count) -> String {
        format!(
            "{} definitions, {} lines in {} files ({} of them, {} lines, from the contracts of the entry points alone)",
            thousands(self.declarations),
            thousands(self.lines),
            self.files,
            contracts.declarations,
            thousands(contracts.lines)
        )
    }
}

/// A number below a million with a comma.
fn thousands(number: usize) -> String {
    if number < 1000 {
        return number.to_string();
    }
    format!("{},{:03}", number / 1000, number % 1000)
}

/// The reached declarations of a kind in a file. A law that something leads to is taken for a definition.
fn of_file(tree: &Tree, reached: &Reached, file: usize, kind: Kind) -> Vec<Id> {
    let kind_of = |id: &Id| match tree.declaration(*id).kind {
        Kind::Law if reached.from(*id).is_some() => Kind::Definition,
        own => own,
    };
    let here = (0..tree.files[file].declarations.len()).map(|at| (file, at));
    here.filter(|id| reached.has(*id) && kind_of(id) == kind).collect()
}

/// The reached declarations of a kind by file.
pub fn by_file(tree: &Tree, reached: &Reached, kind: Kind) -> Vec<Vec<Id>> {
    let files = (0..tree.files.len()).map(|file| of_file(tree, reached, file, kind));
    files.filter(|here| !here.is_empty()).collect()
}

/// How many lines the declarations have.
fn lines(tree: &Tree, ids: &[Id]) -> usize {
    ids.iter().map(|id| tree.declaration(*id).lines).sum()
}

pub fn count(tree: &Tree, reached: &Reached, kind: Kind) -> Count {
    let files = by_file(tree, reached, kind);
    Count {
        declarations: files.iter().map(Vec::len).sum(),
        lines: files.iter().map(|here| lines(tree, here)).sum(),
        files: files.len(),
    }
}

/// The reached declarations of a kind, file by file: the line, the number of lines, the name and the name that led to it.
pub fn list(tree: &Tree, reached: &Reached, kind: Kind) -> String {
    let mut text = String::new();
    for here in by_file(tree, reached, kind) {
        let file = &tree.files[here[0].0];
        writeln!(text, "{}: {} in {} lines", file.path, here.len(), lines(tree, &here)).unwrap();
        for id in here {
            let Declaration { name, line, lines, .. } = tree.declaration(id);
            let from = reached.from(id).map_or(String::new(), |from| format!(" ({})", tree.declaration(from).name));
            writeln!(text, "  {line:>4}  {lines:>3}  {name}{from}").unwrap();
        }
    }
    text
}
