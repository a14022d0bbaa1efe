//! definitions [--check]: lists the definitions that there are to believe, or checks that they stand apart from laws, that none
//! shares a name and that README.md has their count. Runs in the repository's root.

use danivomel_definitions::faults::{faults, named};
use danivomel_definitions::file::Kind;
use danivomel_definitions::listing::{count, list};
use danivomel_definitions::origins::{entries, promised};
use danivomel_definitions::reach::Reached;
use danivomel_definitions::tree::Tree;
use std::path::Path;
use std::process::ExitCode;
use std::{env, fs};

/// The crates, what the contracts reach in them, and what the contracts and the promised laws do.
struct Found {
    tree: Tree,
    by_contracts: Reached,
    by_all: Reached,
}

fn main() -> ExitCode {
    let arguments: Vec<String> = env::args().skip(1).collect();
    let check = match arguments.iter().map(String::as_str).collect::<Vec<_>>()[..] {
        [] => false,
        ["--check"] => true,
        _ => return fail(&format!("say nothing or '--check', not '{}'", arguments.join(" "))),
    };
    match read() {
        Err(message) => fail(&message),
        Ok(found) if check => checked(&found),
        Ok(found) => listed(&found),
    }
}

fn fail(message: &str) -> ExitCode {
    eprintln!("definitions: {message}");
    ExitCode::from(2)
}

fn read() -> Result<Found, String> {
    let tree = Tree::read(Path::new(".")).map_err(|error| format!("cannot read crates: {error}"))?;
    let mut by_contracts = Reached::default();
    by_contracts.follow(&tree, &entries(&tree, &text("tools/definitions/entries.txt")?)?)?;
    let mut by_all = by_contracts.clone();
    by_all.follow(&tree, &promised(&tree, &text("docs/PROMISES.md")?))?;
    Ok(Found { tree, by_contracts, by_all })
}

fn text(path: &str) -> Result<String, String> {
    fs::read_to_string(path).map_err(|error| format!("cannot read {path}: {error}"))
}

/// Every definition, then the types of the sources and the entry points, and the totals.
fn listed(found: &Found) -> ExitCode {
    let Found { tree, by_contracts, by_all } = found;
    for kind in [Kind::Definition, Kind::Type, Kind::Function] {
        println!("{}", list(tree, by_all, kind));
    }
    println!("{}", count(tree, by_all, Kind::Function).say("entry points"));
    println!("{} laws named in docs/PROMISES.md", count(tree, by_all, Kind::Law).declarations);
    println!("{}", count(tree, by_all, Kind::Type).say("types of sources"));
    println!(
        "{} from the contracts of the entry points",
        count(tree, by_contracts, Kind::Definition).say("definitions")
    );
    println!("{} with those from the promised laws", count(tree, by_all, Kind::Definition).say("definitions"));
    ExitCode::SUCCESS
}

/// A line for each fault, with README's count among them, and how many places, names and counts are right.
fn checked(found: &Found) -> ExitCode {
    let Found { tree, by_contracts, by_all } = found;
    let readme = match text("README.md") {
        Ok(readme) => readme.split_whitespace().collect::<Vec<_>>().join(" "),
        Err(message) => return fail(&message),
    };
    let all = count(tree, by_all, Kind::Definition);
    let quoted = all.quoted(&count(tree, by_contracts, Kind::Definition));
    let mut wrong = faults(tree, by_all);
    if !readme.contains(&quoted) {
        wrong.push(format!("README.md: does not say '{quoted}'"));
    }
    wrong.iter().for_each(|fault| println!("{fault}"));
    let asked = all.declarations + named(tree).len() + 1;
    println!("definitions: {} passed, {} failed", asked.saturating_sub(wrong.len()), wrong.len());
    ExitCode::from(if wrong.is_empty() { 0 } else { 1 })
}
