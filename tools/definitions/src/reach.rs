//! Follows names from declaration to declaration.

use crate::file::Kind;
use crate::tree::{Id, Scope, Tree};
use crate::words;
use std::collections::hash_map::Entry;
use std::collections::{BTreeMap, HashMap, VecDeque};

/// What is reached, each with the declaration that first led there; where it starts, nothing did.
#[derive(Clone, Default)]
pub struct Reached(BTreeMap<Id, Option<Id>>);

impl Reached {
    pub fn has(&self, id: Id) -> bool {
        self.0.contains_key(&id)
    }

    /// What led to a declaration.
    pub fn from(&self, id: Id) -> Option<Id> {
        self.0.get(&id).copied().flatten()
    }

    /// Goes on from these. A word that stands for a declaration leads to it, also where a variable hides it: that may say one too
    /// many, and never one too few. Of a law from which this starts only the statement counts.
    pub fn follow(&mut self, tree: &Tree, starts: &[Id]) -> Result<(), String> {
        let mut scopes: HashMap<usize, Scope> = HashMap::new();
        let mut waiting: VecDeque<Id> = starts.iter().copied().filter(|id| !self.has(*id)).collect();
        self.0.extend(waiting.iter().map(|id| (*id, None)));
        while let Some(id) = waiting.pop_front() {
            let scope = match scopes.entry(id.0) {
                Entry::Occupied(known) => known.into_mut(),
                Entry::Vacant(unknown) => unknown.insert(tree.scope(id.0)?),
            };
            for next in self.named(tree, scope, id) {
                if !self.has(next) {
                    self.0.insert(next, Some(id));
                    waiting.push_back(next);
                }
            }
        }
        Ok(())
    }

    /// The declarations that one names.
    fn named(&self, tree: &Tree, scope: &Scope, id: Id) -> Vec<Id> {
        let declaration = tree.declaration(id);
        let proof = declaration.kind == Kind::Law && self.from(id).is_none();
        let body = if proof { &[] } else { &declaration.body[..] };
        let words = declaration.statement.iter().chain(body).filter(|word| word.kind == words::Kind::Name);
        words.flat_map(|word| tree.look_up(scope, &word.text)).collect()
    }
}
