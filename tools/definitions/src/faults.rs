//! Says which definitions stand where they should not, and which share a name.

use crate::file::{Declaration, Kind};
use crate::listing::by_file;
use crate::reach::Reached;
use crate::tree::{Id, Tree};
use std::collections::BTreeMap;

/// A line for each fault: what is reached stands right in specs/, in a file without laws, and nothing else stands there; no two
/// public definitions or types of sources have one name.
pub fn faults(tree: &Tree, reached: &Reached) -> Vec<String> {
    let mut said: Vec<(Id, String)> = Vec::new();
    for id in by_file(tree, reached, Kind::Definition).concat() {
        said.extend(misplaced(tree, id).map(|why| (id, why)));
    }
    for id in definitions(tree) {
        if in_specs(tree, id) && !reached.has(id) {
            said.push((id, "stands right in specs/, and nothing promised leads to it".to_string()));
        }
    }
    said.extend(shared(tree));
    said.sort();
    said.into_iter().map(|(id, why)| format!("{}: {} {why}", place(tree, id), tree.declaration(id).name)).collect()
}

/// The public definitions of specs.
pub fn definitions(tree: &Tree) -> Vec<Id> {
    declarations(tree, |own| own.kind == Kind::Definition && own.public)
}

/// The public definitions of specs and the types of sources.
pub fn named(tree: &Tree) -> Vec<Id> {
    declarations(tree, |own| own.kind == Kind::Type || own.kind == Kind::Definition && own.public)
}

fn declarations(tree: &Tree, is_one: fn(&Declaration) -> bool) -> Vec<Id> {
    let all = tree.files.iter().enumerate().flat_map(|(file, here)| {
        here.declarations.iter().enumerate().filter(move |(_, own)| is_one(own)).map(move |(at, _)| (file, at))
    });
    all.collect()
}

fn place(tree: &Tree, id: Id) -> String {
    format!("{}:{}", tree.files[id.0].path, tree.declaration(id).line)
}

/// Whether a declaration stands in crates/NAME/specs itself.
fn in_specs(tree: &Tree, id: Id) -> bool {
    let parts: Vec<&str> = tree.files[id.0].path.split('/').collect();
    parts.len() == 4 && parts[2] == "specs"
}

fn misplaced(tree: &Tree, id: Id) -> Option<String> {
    let file = &tree.files[id.0];
    if tree.declaration(id).kind == Kind::Law {
        return Some("is neither abbrev nor unfoldable".to_string());
    }
    if !in_specs(tree, id) {
        return file.path.split('/').nth(3).map(|folder| format!("stands in {folder}/"));
    }
    let laws = file.declarations.iter().filter(|declaration| declaration.kind == Kind::Law).count();
    if laws > 0 {
        Some(format!("stands among laws ({laws})"))
    } else {
        None
    }
}

/// The definitions and types whose name another one before them has.
fn shared(tree: &Tree) -> Vec<(Id, String)> {
    let mut first: BTreeMap<&str, Id> = BTreeMap::new();
    let mut said = Vec::new();
    for id in named(tree) {
        match first.get(tree.declaration(id).name.as_str()) {
            Some(before) => said.push((id, format!("has the name of {}", place(tree, *before)))),
            None => {
                first.insert(&tree.declaration(id).name, id);
            }
        }
    }
    said
}
