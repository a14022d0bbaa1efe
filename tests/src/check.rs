//! Counts comparisons by topic, prints each failing case whole, and ends with one line for the gate.

use crate::random::Random;
use std::fmt::Debug;
use std::process::ExitCode;

/// How many failures of one topic are printed.
const PRINTED: u64 = 5;

/// The counts of a whole run.
pub struct Checks {
    seed: u64,
    passed: u64,
    failed: u64,
}

/// The counts of one topic, and its random generator.
pub struct Topic {
    name: String,
    pub random: Random,
    passed: u64,
    failed: u64,
}

impl Checks {
    /// A run whose topics draw their seeds from this one.
    pub fn new(seed: u64) -> Checks {
        Checks { seed, passed: 0, failed: 0 }
    }

    /// Runs one topic and prints its line.
    pub fn topic(&mut self, name: &str, who: &str, run: impl FnOnce(&mut Topic)) {
        let name = format!("{name} ({who})");
        let seed = seed_of(&name, self.seed);
        let mut topic = Topic { random: Random::new(seed), name, passed: 0, failed: 0 };
        run(&mut topic);
        println!("{}: {} passed, {} failed, seed {seed:016x}", topic.name, topic.passed, topic.failed);
        self.passed += topic.passed;
        self.failed += topic.failed;
    }

    /// Prints the last line, and gives the exit status: 0 exactly if something passed and nothing failed.
    pub fn end(self) -> ExitCode {
        println!("tests: {} passed, {} failed", self.passed, self.failed);
        ExitCode::from(u8::from(self.failed > 0 || self.passed == 0))
    }
}

impl Topic {
    /// Compares what was found with what is expected.
    pub fn same<T: PartialEq + Debug>(&mut self, case: &dyn Debug, what: &str, found: T, expected: T) {
        if found == expected {
            self.passed += 1;
            return;
        }
        self.failed += 1;
        if self.failed <= PRINTED {
            println!("FAILED {}, {what}\n  case {case:?}\n  found    {found:?}\n  expected {expected:?}", self.name);
        }
    }

    /// Checks that a statement holds.
    pub fn holds(&mut self, case: &dyn Debug, what: &str, statement: bool) {
        self.same(case, what, statement, true);
    }
}

/// A topic's own seed: FNV-1a over its name, mixed with the run's seed.
fn seed_of(name: &str, seed: u64) -> u64 {
    let start = 0xcbf2_9ce4_8422_2325 ^ seed;
    name.bytes().fold(start, |hash, byte| (hash ^ u64::from(byte)).wrapping_mul(0x0100_0000_01b3))
}
