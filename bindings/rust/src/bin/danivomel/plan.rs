//! A settled job: the ranges that are left, and each group's levelled shares within them.

use crate::job::{Group, Job};
use danivomel::{level, settle, Levelled, Range, Refusal, Unsettled};

/// A settled job.
pub struct Plan<'a> {
    /// The job.
    pub job: &'a Job,
    /// How often the planner went through all groups, the quiet pass counted.
    pub passes: u64,
    /// The range that is left to each unit.
    pub left: Vec<Range>,
    /// What each group's line of the report has.
    pub shared: Vec<Shared>,
}

/// A group's levelled shares, as its line of the report has them.
pub struct Shared {
    /// How many of its units run: the n of the figures.
    pub running: usize,
    /// The shares, in the group's order.
    pub shares: Vec<u64>,
    /// The level and the figures.
    pub levelled: Levelled,
}

impl<'a> Plan<'a> {
    /// Has the planner settle a job, and level each group within the ranges that this leaves.
    pub fn settle(job: &'a Job) -> Result<Plan<'a>, Unsettled> {
        let mut left = job.opening.clone();
        let passes = settle(&job.text, &mut left, &mut job.scratch())?;
        let shared: Result<_, Refusal> = job.groups.iter().map(|group| Shared::within(job, group, &left)).collect();
        let shared = shared.map_err(|refusal| Unsettled { refusal, passes })?;
        Ok(Plan { job, passes, left, shared })
    }
}

impl Shared {
    /// Has the planner level a group within the ranges of a table.
    pub fn within(job: &Job, group: &Group, table: &[Range]) -> Result<Shared, Refusal> {
        let members = job.members(group, table);
        let mut shares = vec![0; group.units.len()];
        let levelled = level(&members.lows, &members.highs, &members.marks, group.total, &mut shares)?;
        Ok(Shared { running: members.running(), shares, levelled })
    }

    /// The mean of the running units' shares, in copies; 0 where none runs.
    pub fn mean(&self) -> f64 {
        self.per_running(self.shares.iter().sum::<u64>() as f64)
    }

    /// The deviation as the average distance from the mean, in copies.
    pub fn average_distance(&self) -> f64 {
        self.per_running(self.per_running(self.levelled.deviation.0 as f64))
    }

    /// The spread as the root of the average squared distance from the mean, the standard deviation, in copies.
    pub fn standard_distance(&self) -> f64 {
        self.per_running((self.levelled.spread.0 as f64).sqrt())
    }

    /// The pair differences as the average difference between two running units, in copies; 0 where no two run.
    pub fn average_difference(&self) -> f64 {
        let pairs = self.running * self.running.saturating_sub(1) / 2;
        self.levelled.pairs.0 as f64 / pairs.max(1) as f64
    }

    /// A number for each running unit.
    fn per_running(&self, number: f64) -> f64 {
        number / self.running.max(1) as f64
    }
}
