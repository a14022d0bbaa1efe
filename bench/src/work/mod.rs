//! The work that is measured, a file for each kind.

pub mod filtering;
pub mod headroom;
pub mod level;
pub mod narrow;
pub mod pairs;
pub mod paper;
pub mod read;
pub mod report;
pub mod settle;
pub mod shut;
pub mod unkind;
pub mod write;

use crate::jobs::job;
use danivomel::{Limit, Range};
use danivomel_tests::calls;
use danivomel_tests::cases::groups::GroupCase;
use danivomel_tests::cases::jobs::print_job;
use danivomel_tests::independent::reader::Group;
use danivomel_tests::independent::{self, SCRATCH_PER_UNIT};

/// The random jobs that are settled before they are timed: how many groups, and of how many members.
pub const SETTLED: [(usize, usize); 3] = [(8, 8), (64, 8), (16, 256)];

/// A job's text and its settled table.
pub struct Settled {
    pub text: Vec<u8>,
    pub table: Vec<Range>,
}

impl Settled {
    /// A random job, settled.
    pub fn of(groups: usize, n: usize) -> Settled {
        let job = job(groups, n);
        let (text, mut table) = (print_job(&job), calls::table(&job.lows, &job.highs));
        let mut scratch = vec![0; SCRATCH_PER_UNIT * table.len()];
        independent::settle(&text, &mut table, &mut scratch).expect("the job settles");
        Settled { text, table }
    }
}

/// A group by itself, as the only one of a job.
pub fn lone(case: &GroupCase) -> Group {
    let says_pairs = case.limits.pairs != Limit::Any;
    Group { total: case.total, limits: case.limits, says_pairs, members: (0..case.lows.len()).collect() }
}

/// How many values ranges have.
pub fn values(lows: &[u64], highs: &[u64]) -> u64 {
    lows.iter().zip(highs).map(|(low, high)| high - low + 1).sum()
}
