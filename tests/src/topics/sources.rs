//! What the gate reads in the code itself, where a contract cannot say it: a levelling has one count of the additions of
//! T(v), and nothing adds T(v) up beside it; and what the page of promises names is there.

use crate::check::{Checks, Topic};
use std::collections::BTreeSet;
use std::path::Path;

/// Reads the code.
pub fn run(checks: &mut Checks) {
    checks.topic("one count of additions", "sources", one_count);
    checks.topic("names in the page of promises", "sources", promised_names);
}

/// The code of a file of crate levelling, without comments and contracts, which say nothing of what is run.
fn code(name: &str) -> String {
    let text = std::fs::read_to_string(format!("crates/levelling/src/{name}.rt")).expect("the code is read");
    let is_code = |line: &&str| !["//", "ghost ", "requires ", "ensures "].iter().any(|start| line.starts_with(start));
    text.lines().map(str::trim_start).filter(is_code).map(|line| format!("{line}\n")).collect()
}

/// Checks how often some words are in a code.
fn times(topic: &mut Topic, file: &str, code: &str, words: &str, expected: usize) {
    topic.same(&(file, words), "times", code.matches(words).count(), expected);
}

/// A count can only be begun by lending a number of one's own. In levels none is lent: the four parameters are all that is
/// lent there, one place raises it, and one loop goes over the members and adds up shares moved to a level; the other one
/// bisects. Above levels there is no loop and no chain, and one count is begun and lent once, to the one call that finds the level.
fn one_count(topic: &mut Topic) {
    let levels = code("levels");
    times(topic, "levels", &levels, "fn ", 4);
    times(topic, "levels", &levels, "additions: &mut u64", 4);
    times(topic, "levels", &levels, "&mut", 4);
    times(topic, "levels", &levels, "*additions", 1);
    times(topic, "levels", &levels, "*additions += 1;", 1);
    times(topic, "levels", &levels, "clamp(", 1);
    times(topic, "levels", &levels, "for ", 1);
    times(topic, "levels", &levels, ".iter()", 1);
    times(topic, "levels", &levels, "while ", 1);
    times(topic, "levels", &levels, ".sum(", 0);
    times(topic, "levels", &levels, ".fold(", 0);
    let lib = code("lib");
    times(topic, "lib", &lib, "let mut additions: u64 = 0;", 1);
    times(topic, "lib", &lib, "&mut additions", 1);
    times(topic, "lib", &lib, "*additions", 0);
    times(topic, "lib", &lib, "find_level(", 1);
    times(topic, "lib", &lib, "fn share_out(", 1);
    times(topic, "lib", &lib, "share_out(", 2);
    times(topic, "lib", &lib, "for ", 0);
    times(topic, "lib", &lib, "while ", 0);
    times(topic, "lib", &lib, ".iter()", 0);
    times(topic, "lib", &lib, ".sum(", 0);
    times(topic, "lib", &lib, ".fold(", 0);
}

/// The names in a text: runs of letters, digits, - and _.
fn names(text: &str) -> impl Iterator<Item = String> + '_ {
    let parts = text.split(|letter: char| !letter.is_ascii_alphanumeric() && letter != '-' && letter != '_');
    parts.filter(|name| !name.is_empty()).map(str::to_string)
}

/// Adds the names in all files of Rattle and antt below a folder, but for what rt keeps in out/.
fn add_names(folder: &Path, found: &mut BTreeSet<String>) {
    for entry in std::fs::read_dir(folder).expect("the folder is read") {
        let path = entry.expect("the entry is read").path();
        if path.is_dir() {
            if !path.ends_with("out") {
                add_names(&path, found);
            }
        } else if path.extension().map_or(false, |end| end == "antt" || end == "rt") {
            found.extend(names(&std::fs::read_to_string(&path).expect("the file is read")));
        }
    }
}

/// Every law, definition and function that the page of promises quotes by its name alone stands in some crate.
fn promised_names(topic: &mut Topic) {
    let page = std::fs::read_to_string("docs/PROMISES.md").expect("the page is read");
    let mut found = BTreeSet::new();
    add_names(Path::new("crates"), &mut found);
    let mut asked = 0;
    for quoted in page.split('`').skip(1).step_by(2).filter(|quoted| names(quoted).eq([quoted.to_string()])) {
        topic.holds(&quoted, "is in some crate", found.contains(quoted));
        asked += 1;
    }
    topic.holds(&asked, "many names are asked for", asked > 200);
}
