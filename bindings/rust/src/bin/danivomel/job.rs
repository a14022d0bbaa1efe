//! A job that the planner has read: its text, its opening table and its groups.

use danivomel::{read, Limit, Limits, Range, Refusal, MOST_UNITS, RUNNING, SCRATCH_PER_UNIT, SHUT};

/// A job that the planner has read.
pub struct Job {
    /// The job text.
    pub text: Vec<u8>,
    /// The ranges of the unit lines, 0 to 0 for a shut unit.
    pub opening: Vec<Range>,
    /// A mark for each unit.
    pub marks: Vec<u64>,
    /// The groups, in the order of their lines.
    pub groups: Vec<Group>,
}

/// A group of a job.
pub struct Group {
    /// The copies that it shares out.
    pub total: u64,
    /// Its three limits.
    pub limits: Limits,
    /// The numbers of its units, counted from 1.
    pub units: Vec<usize>,
}

/// The lists of one group, as the planner's calls take them.
pub struct Members {
    pub lows: Vec<u64>,
    pub highs: Vec<u64>,
    pub marks: Vec<u64>,
}

impl Job {
    /// Has the planner read a text. It has unit lines and then group lines, all in the form: they need no second check.
    pub fn read(text: Vec<u8>) -> Result<Job, Refusal> {
        let mut opening = vec![Range::default(); MOST_UNITS];
        let counts = read(&text, &mut opening)?;
        opening.truncate(counts.units);
        let mut lines = text.split(|&byte| byte == b'\n').map(items);
        let marks =
            lines.by_ref().take(counts.units).map(|unit| if unit[0] == "shut" { SHUT } else { RUNNING }).collect();
        let groups = lines.take(counts.groups).map(|line| group(&line)).collect();
        Ok(Job { text, opening, marks, groups })
    }

    /// A scratch for settling it.
    pub fn scratch(&self) -> Vec<u64> {
        vec![0; SCRATCH_PER_UNIT * self.opening.len()]
    }

    /// The lists of a group, with the ranges of a table.
    pub fn members(&self, group: &Group, table: &[Range]) -> Members {
        let indices = || group.units.iter().map(|unit| unit - 1);
        Members {
            lows: indices().map(|index| table[index].low).collect(),
            highs: indices().map(|index| table[index].high).collect(),
            marks: indices().map(|index| self.marks[index]).collect(),
        }
    }
}

impl Members {
    /// How many members run: the n of the figures.
    pub fn running(&self) -> usize {
        self.marks.iter().filter(|&&mark| mark == RUNNING).count()
    }
}

/// The words and numbers of a line, without its brackets.
pub fn items(line: &[u8]) -> Vec<String> {
    String::from_utf8_lossy(line)
        .split(&['(', ')', ' '][..])
        .filter(|item| !item.is_empty())
        .map(String::from)
        .collect()
}

/// A group from the items of its line: the word, the total, a word and a limit for each figure, and the units after `of`. A
/// figure without a word has the limit any.
fn group(items: &[String]) -> Group {
    let named = |name: &str| items.iter().position(|item| item == name).map_or(items.len(), |index| index + 1);
    let limit_of = |name: &str| items.get(named(name)).map_or(Limit::Any, |item| limit(item));
    Group {
        total: number(&items[1]),
        limits: Limits { deviation: limit_of("dev"), spread: limit_of("spread"), pairs: limit_of("pairs") },
        units: items[named("of")..].iter().map(|item| number(item) as usize).collect(),
    }
}

/// A limit from its item.
fn limit(item: &str) -> Limit {
    match item {
        "any" => Limit::Any,
        _ => Limit::AtMost(number(item)),
    }
}

/// A number from its digits; one that 64 bits cannot hold is the greatest they can, which is beyond every range.
pub fn number(digits: &str) -> u64 {
    digits.parse().unwrap_or(u64::MAX)
}
