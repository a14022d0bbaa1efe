//! Where the definitions are followed from: the entry points, and the laws that the page of promises names.

use crate::file::Kind;
use crate::tree::{Id, Tree};
use std::collections::BTreeSet;

/// The entry points of a list with the source and the function on each line.
pub fn entries(tree: &Tree, list: &str) -> Result<Vec<Id>, String> {
    let lines = list.lines().map(str::trim).filter(|line| !line.is_empty() && !line.starts_with('#'));
    lines.map(|line| entry(tree, line).ok_or_else(|| format!("no entry point '{line}'"))).collect()
}

fn entry(tree: &Tree, line: &str) -> Option<Id> {
    let (path, name) = line.split_once(' ')?;
    let file = tree.files.iter().position(|file| file.path == path)?;
    tree.find(file, name).into_iter().find(|id| tree.declaration(*id).kind == Kind::Function)
}

/// The declarations of specs that a page names in backquotes. A name that several files declare is taken from those that
/// its line names, or else from those that the page names.
pub fn promised(tree: &Tree, page: &str) -> Vec<Id> {
    let mut found = BTreeSet::new();
    for line in page.lines() {
        for name in line.split('`').skip(1).step_by(2) {
            let all = declared(tree, name);
            let of = |text: &str| all.iter().copied().filter(|id| mentions(text, &tree.files[id.0].path)).collect();
            let choices: [Vec<Id>; 3] = [of(line), of(page), all.clone()];
            found.extend(choices.iter().find(|ids| !ids.is_empty()).into_iter().flatten());
        }
    }
    found.into_iter().collect()
}

/// The declarations of this name in files of specs.
fn declared(tree: &Tree, name: &str) -> Vec<Id> {
    let files = (0..tree.files.len()).filter(|file| tree.files[*file].path.ends_with(".antt"));
    files.flat_map(|file| tree.find(file, name)).filter(|id| tree.declaration(*id).name == name).collect()
}

/// Whether a text has the path of a file, from the crate's name on or the last part alone.
fn mentions(text: &str, path: &str) -> bool {
    let whole = path.trim_start_matches("crates/");
    let last = path.rsplit('/').next().unwrap_or(path);
    let mut words = text.split(|letter: char| !letter.is_alphanumeric() && !"/.".contains(letter));
    words.any(|word| word == whole || word == last)
}
