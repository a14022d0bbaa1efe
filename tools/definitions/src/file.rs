//! What a file declares and what it uses.

use crate::words::Word;

#[derive(Clone, Copy, Debug, PartialEq, Eq)]
pub enum Kind {
    /// A record, a data type, or what is marked `abbrev` or `unfoldable`.
    Definition,
    /// A declaration without a mark: its statement counts, and its proof does not.
    Law,
    /// A struct or an enum of a source.
    Type,
    /// A function of a source with its contract.
    Function,
}

#[derive(Debug)]
pub struct Declaration {
    pub name: String,
    pub kind: Kind,
    /// Whether other files can name it.
    pub public: bool,
    /// The line of the signature.
    pub line: usize,
    /// How many lines it has, the comment above counted and empty lines not.
    pub lines: usize,
    /// Its signature, with the parameters of the sections around it; of a function the whole contract.
    pub statement: Vec<Word>,
    /// Its clauses; of a record the types of its fields, of a data type those of its constructors.
    pub body: Vec<Word>,
    /// A data type's constructors.
    pub constructors: Vec<String>,
}

/// A line `use`: a path with items, each under a name, or with a name for the path itself.
#[derive(Debug)]
pub struct Use {
    pub path: String,
    pub items: Vec<(String, String)>,
    pub name: Option<String>,
}

impl Use {
    /// Reads `a.b.{c, d as e}`, `a.b as c` or `a.b`.
    pub fn read(text: &str) -> Use {
        if let Some((path, items)) = text.split_once(".{") {
            let items = items.trim_end_matches('}').split(',').map(str::trim).filter(|item| !item.is_empty());
            return Use { path: path.trim().to_string(), items: items.map(renamed).collect(), name: None };
        }
        let (path, name) = renamed(text);
        let name = name.rsplit('.').next().map(str::to_string);
        Use { path, items: Vec::new(), name }
    }
}

/// `a as b` as both names; `a` is its own.
fn renamed(text: &str) -> (String, String) {
    let (name, other) = text.split_once(" as ").unwrap_or((text, text));
    (name.trim().to_string(), other.trim().to_string())
}

#[derive(Debug, Default)]
pub struct File {
    pub path: String,
    /// `crate.Module` of specs, `crate::module` of sources.
    pub module: String,
    pub uses: Vec<Use>,
    pub declarations: Vec<Declaration>,
}

impl File {
    pub fn new(path: &str, module: &str) -> File {
        File { path: path.to_string(), module: module.to_string(), ..File::default() }
    }
}

/// How many of the lines are not empty.
pub fn full_lines(lines: &[&str]) -> usize {
    lines.iter().filter(|line| !line.trim().is_empty()).count()
}
