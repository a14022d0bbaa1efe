//! All files of the crates, and what a name in one of them stands for.

use crate::file::{Declaration, File, Kind, Use};
use crate::{sources, specs};
use std::collections::HashMap;
use std::path::Path;
use std::{fs, io};

/// A declaration: its file, and its number there.
pub type Id = (usize, usize);

/// What stands before a dot: a file, or a type whose constructors follow.
#[derive(Clone, Copy)]
enum Place {
    File(usize),
    Type(Id),
}

/// The names and the places that a file can name. A constructor stands for its type.
#[derive(Default)]
pub struct Scope {
    names: HashMap<String, Vec<Id>>,
    places: HashMap<String, Place>,
}

#[derive(Default)]
pub struct Tree {
    pub files: Vec<File>,
    modules: HashMap<String, usize>,
}

impl Tree {
    /// Reads the crates below a folder.
    pub fn read(root: &Path) -> io::Result<Tree> {
        let mut tree = Tree::default();
        let mut paths = Vec::new();
        collect(root, "crates", &mut paths)?;
        paths.sort();
        for path in paths {
            let text = fs::read_to_string(root.join(&path))?;
            tree.add(&path, &text);
        }
        Ok(tree)
    }

    /// Adds a file by its path, `crates/NAME/specs/..antt`, `crates/NAME/proofs/Laws/..antt` or `crates/NAME/src/..rt`; others are left out.
    pub fn add(&mut self, path: &str, text: &str) {
        let parts: Vec<&str> = path.splitn(4, '/').collect();
        if parts.len() < 4 {
            return;
        }
        let file = match (parts[2], parts[3].strip_suffix(".antt"), parts[3].strip_suffix(".rt")) {
            ("specs", Some(name), _) => specs::read(path, &format!("{}.{}", parts[1], name.replace('/', ".")), text),
            ("proofs", Some(name), _) if name.starts_with("Laws/") => {
                specs::read(path, &format!("{}.proofs.{}", parts[1], name.replace('/', ".")), text)
            }
            ("src", _, Some("lib" | "main")) => sources::read(path, &format!("{}::", parts[1]), text),
            ("src", _, Some(name)) => sources::read(path, &format!("{}::{}", parts[1], name.replace('/', "::")), text),
            _ => return,
        };
        self.modules.insert(file.module.clone(), self.files.len());
        self.files.push(file);
    }

    pub fn declaration(&self, id: Id) -> &Declaration {
        &self.files[id.0].declarations[id.1]
    }

    /// What this name, or the constructor of this name, stands for in a file.
    pub fn find(&self, file: usize, name: &str) -> Vec<Id> {
        let is_it = |declaration: &Declaration| {
            declaration.name == name || declaration.constructors.iter().any(|own| own == name)
        };
        let here = self.files[file].declarations.iter().enumerate();
        here.filter(|(_, declaration)| is_it(declaration)).map(|(at, _)| (file, at)).collect()
    }

    /// What the names of a file stand for, or a message for a name of a `use` that is nowhere.
    pub fn scope(&self, file: usize) -> Result<Scope, String> {
        let mut scope = Scope::default();
        for used in &self.files[file].uses {
            self.bring(&mut scope, used).map_err(|name| format!("{}: '{name}' is nowhere", self.files[file].path))?;
        }
        let own = self.files[file].declarations.iter().enumerate().filter(|(_, own)| own.kind != Kind::Function);
        for (at, declaration) in own {
            scope.bring(&declaration.name, &[(file, at)]);
            declaration.constructors.iter().for_each(|name| scope.bring(name, &[(file, at)]));
        }
        Ok(scope)
    }

    /// Brings in what a `use` names, of a source's own uses the types; a library's names stand for nothing here.
    fn bring(&self, scope: &mut Scope, used: &Use) -> Result<(), String> {
        let place = match self.place(&used.path) {
            Some(place) => place,
            None if self.is_own(&used.path) => return Err(used.path.clone()),
            None => return Ok(()),
        };
        if let Some(name) = &used.name {
            scope.places.insert(name.clone(), place);
        }
        let rust = used.path.contains("::");
        for (name, own) in &used.items {
            let mut found = self.in_place(place, name);
            if found.is_empty() && !rust {
                return Err(format!("{}.{name}", used.path));
            }
            found.retain(|id| self.declaration(*id).kind != Kind::Function);
            scope.bring(own, &found);
        }
        Ok(())
    }

    /// Whether a path of antt goes to one of the crates here.
    fn is_own(&self, path: &str) -> bool {
        let name = path.strip_prefix("Rattle.").and_then(|rest| rest.split('.').next());
        name.map_or(false, |name| self.modules.keys().any(|module| module.split(['.', ':']).next() == Some(name)))
    }

    fn in_place(&self, place: Place, name: &str) -> Vec<Id> {
        match place {
            Place::File(file) => self.find(file, name),
            Place::Type(id) => vec![id],
        }
    }

    /// What a path names: `Rattle.a.specs.B` and `Rattle.a.proofs.Laws.B` a file, or a type with one part more; `a::b` a source.
    fn place(&self, path: &str) -> Option<Place> {
        let rest = match path.strip_prefix("Rattle.") {
            Some(rest) => rest,
            None => return self.modules.get(path).copied().map(Place::File),
        };
        let (name, rest) = rest.split_once('.')?;
        let rest = match rest.strip_prefix("specs.") {
            Some(rest) => rest,
            None if rest.starts_with("proofs.") => rest,
            None => return None,
        };
        if let Some(declared) = rest.strip_prefix("declared.") {
            let declared = declared.trim_end_matches(".TheVariants");
            let (module, own) = declared.rsplit_once('.').unwrap_or(("", declared));
            return self.type_in(&format!("{name}::{}", module.replace('.', "::")), own);
        }
        if let Some(file) = self.modules.get(&format!("{name}.{rest}")) {
            return Some(Place::File(*file));
        }
        let (module, own) = rest.rsplit_once('.')?;
        self.type_in(&format!("{name}.{module}"), own)
    }

    fn type_in(&self, module: &str, name: &str) -> Option<Place> {
        let file = *self.modules.get(module)?;
        self.find(file, name).first().map(|id| Place::Type(*id))
    }

    /// What a name with its dots stands for; nothing for variables and the names of libraries.
    pub fn look_up(&self, scope: &Scope, path: &str) -> Vec<Id> {
        let parts: Vec<&str> = path.split('.').collect();
        let mut found = scope.names.get(parts[0]).cloned().unwrap_or_default();
        if parts.len() == 1 {
            return found;
        }
        if let Some(place) = scope.places.get(parts[0]) {
            found.extend(self.in_place(*place, parts[1]));
        }
        let last = parts.len() - 1;
        let whole = self.place(&parts[..last].join("."));
        found.extend(whole.into_iter().flat_map(|place| self.in_place(place, parts[last])));
        found
    }
}

impl Scope {
    /// Brings in a name; of an operator also the parts between its argument places.
    fn bring(&mut self, name: &str, ids: &[Id]) {
        let parts = name.split('◌').filter(|part| !part.is_empty() && *part != name);
        for word in parts.chain([name]) {
            self.names.entry(word.to_string()).or_default().extend(ids);
        }
    }
}

/// The files below a folder, by their paths from the root; what rt keeps in a crate's out/ is left out.
fn collect(root: &Path, folder: &str, paths: &mut Vec<String>) -> io::Result<()> {
    for entry in fs::read_dir(root.join(folder))? {
        let entry = entry?;
        let path = format!("{folder}/{}", entry.file_name().to_string_lossy());
        if entry.file_type()?.is_dir() {
            if entry.file_name() != "out" {
                collect(root, &path, paths)?;
            }
        } else {
            paths.push(path);
        }
    }
    Ok(())
}
