//! What is called: the words on the command line, taken apart.

use crate::help::{help_of, HELP, VERSION};
use crate::job::{number, Members};
use crate::Failure;
use danivomel::{Limit, Limits, RUNNING, SHUT};
use std::ffi::OsString;

/// A call of the command.
pub enum Call {
    /// Prints a text: help or the version.
    Say(String),
    /// Does something with a job.
    OnJob(OnJob, Source),
    /// Levels the group of the command line.
    Level(GivenGroup),
    /// Narrows the group of the command line.
    Narrow(GivenGroup),
}

/// What can be done with a job.
#[derive(Clone, Copy)]
pub enum OnJob {
    Settle,
    Check,
    HandOn,
    Table,
    Sheet,
}

/// Where a job comes from.
pub enum Source {
    StandardInput,
    File(OsString),
}

/// One group, given on the command line.
pub struct GivenGroup {
    pub total: u64,
    pub limits: Limits,
    pub members: Members,
}

impl Call {
    /// A call from its words, the command's own name left out.
    pub fn from_words(words: &[OsString]) -> Result<Call, Failure> {
        let (name, rest) = match words.split_first() {
            Some((name, rest)) => (name.to_string_lossy(), rest),
            None => return Err(Failure::Wrong(format!("no words are given\n{}", HELP.trim_end()))),
        };
        if rest.iter().any(|word| word == "--help" || word == "-h") {
            if let Some(help) = help_of(&name) {
                return Ok(Call::Say(help.to_string()));
            }
        }
        match &*name {
            "--help" | "-h" | "help" => Ok(Call::Say(HELP.to_string())),
            "--version" | "-V" => Ok(Call::Say(VERSION.to_string())),
            "settle" => on_job(OnJob::Settle, &name, rest),
            "check" => on_job(OnJob::Check, &name, rest),
            "hand-on" => on_job(OnJob::HandOn, &name, rest),
            "table" => on_job(OnJob::Table, &name, rest),
            "sheet" => on_job(OnJob::Sheet, &name, rest),
            "level" => given_group(&name, rest, &["--total"]).map(Call::Level),
            "narrow" => given_group(&name, rest, &["--total", "--dev", "--spread", "--pairs"]).map(Call::Narrow),
            _ => Err(Failure::Wrong(format!("there is no '{name}'; 'danivomel --help' lists what there is"))),
        }
    }
}

/// Wrong words after a command's name.
fn wrong<T>(name: &str, what: String) -> Result<T, Failure> {
    Err(Failure::Wrong(format!("{what}; 'danivomel {name} --help' says how it is called")))
}

/// A call on a job, with the words after its name: one file, or none for standard input.
fn on_job(act: OnJob, name: &str, words: &[OsString]) -> Result<Call, Failure> {
    let shown: Vec<_> = words.iter().map(|word| word.to_string_lossy()).collect();
    if let Some(option) = shown.iter().find(|word| word.len() > 1 && word.starts_with('-')) {
        return wrong(name, format!("'{option}' is no option (a file of that name is './{option}')"));
    }
    match words {
        [] => Ok(Call::OnJob(act, Source::StandardInput)),
        [word] if word == "-" => Ok(Call::OnJob(act, Source::StandardInput)),
        [file] => Ok(Call::OnJob(act, Source::File(file.clone()))),
        _ => wrong(name, format!("one job at a time, not {}", words.len())),
    }
}

/// The options on a command line with their values, and the words that are none.
#[derive(Default)]
struct Words {
    options: Vec<(String, String)>,
    others: Vec<String>,
}

/// Takes the words after a command's name apart: `--name VALUE` or `--name=VALUE` for an option, each given once.
fn take_apart(name: &str, words: &[OsString], allowed: &[&str]) -> Result<Words, Failure> {
    let mut found = Words::default();
    let mut words = words.iter().map(|word| word.to_string_lossy().into_owned());
    while let Some(word) = words.next() {
        if !word.starts_with("--") {
            found.others.push(word);
            continue;
        }
        let (option, value) = match word.split_once('=') {
            Some((option, value)) => (option.to_string(), Some(value.to_string())),
            None => (word, words.next()),
        };
        if !allowed.contains(&&*option) {
            return wrong(name, format!("'{option}' is no option of it"));
        }
        match value {
            Some(value) if found.value(&option).is_none() => found.options.push((option, value)),
            _ => return wrong(name, format!("'{option}' is given once, and with a value")),
        }
    }
    Ok(found)
}

impl Words {
    /// The value of an option, where it is given.
    fn value(&self, option: &str) -> Option<&str> {
        self.options.iter().find(|(given, _)| given == option).map(|(_, value)| &**value)
    }
}

/// The group of a command line: its total, those options of its limits that are allowed, and a word for each unit.
fn given_group(name: &str, words: &[OsString], options: &[&str]) -> Result<GivenGroup, Failure> {
    let words = take_apart(name, words, options)?;
    let total = match words.value("--total") {
        Some(value) => whole(name, value)?,
        None => return wrong(name, "no --total is given".into()),
    };
    let limits = Limits {
        deviation: limit(name, words.value("--dev"))?,
        spread: limit(name, words.value("--spread"))?,
        pairs: limit(name, words.value("--pairs"))?,
    };
    if words.others.is_empty() {
        return wrong(name, "no unit is given".into());
    }
    let mut members = Members { lows: vec![], highs: vec![], marks: vec![] };
    for word in &words.others {
        let (low, high, mark) = member(name, word)?;
        members.lows.push(low);
        members.highs.push(high);
        members.marks.push(mark);
    }
    Ok(GivenGroup { total, limits, members })
}

/// A unit from its word: LOW..HIGH, or `shut`.
fn member(name: &str, word: &str) -> Result<(u64, u64, u64), Failure> {
    if word == "shut" {
        return Ok((0, 0, SHUT));
    }
    match word.split_once("..") {
        Some((low, high)) => Ok((whole(name, low)?, whole(name, high)?, RUNNING)),
        None => wrong(name, format!("'{word}' is no unit: it is LOW..HIGH, as in 0..12000, or shut")),
    }
}

/// A limit from its value; any where none is given.
fn limit(name: &str, value: Option<&str>) -> Result<Limit, Failure> {
    match value {
        None | Some("any") => Ok(Limit::Any),
        Some(value) => whole(name, value).map(Limit::AtMost),
    }
}

/// A whole number from its digits; whether it is beyond its range the planner says.
fn whole(name: &str, digits: &str) -> Result<u64, Failure> {
    if digits.is_empty() || !digits.bytes().all(|byte| byte.is_ascii_digit()) {
        return wrong(name, format!("'{digits}' is no whole number: write it in digits alone, as in 12000"));
    }
    Ok(number(digits))
}
