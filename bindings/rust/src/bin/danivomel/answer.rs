//! The answer to a call: what is printed, or why nothing is.

use crate::advice::{on_group, on_lists, on_text};
use crate::call::{Call, GivenGroup, OnJob, Source};
use crate::job::Job;
use crate::plan::Plan;
use crate::sheet::sheet;
use crate::table::table;
use crate::Failure;
use danivomel::{level, narrow, report, settle, write, Refusal, Unsettled, BUFFER_BYTES, WRITTEN_BYTES};
use std::fs::File;
use std::io::{stdin, Read};

/// One byte more than a job text may have: that many are enough for the planner to refuse it.
const READ_BYTES: u64 = 65_537;

/// What a call prints.
pub fn answer(call: Call) -> Result<Vec<u8>, Failure> {
    match call {
        Call::Say(text) => Ok(text.into_bytes()),
        Call::OnJob(act, source) => answer_on_job(act, &source),
        Call::Level(group) => on_given("level", &group, levelled),
        Call::Narrow(group) => on_given("narrow", &group, narrowed),
    }
}

/// What a call on a job prints.
fn answer_on_job(act: OnJob, source: &Source) -> Result<Vec<u8>, Failure> {
    let text = source.read().map_err(Failure::Wrong)?;
    let job = match Job::read(text.clone()) {
        Ok(job) => job,
        Err(refusal) => return Err(Failure::Refused(refusal, on_text(&source.name(), &text, refusal))),
    };
    let done = match act {
        OnJob::Settle => reported(&job),
        OnJob::Check => Ok(format!("units {}, groups {}\n", job.opening.len(), job.groups.len()).into_bytes()),
        OnJob::HandOn => handed_on(&job),
        OnJob::Table => Plan::settle(&job).map(|plan| table(&plan, &source.name()).into_bytes()),
        OnJob::Sheet => Plan::settle(&job).map(|plan| sheet(&plan, &source.name()).into_bytes()),
    };
    done.map_err(|unsettled| Failure::Refused(unsettled.refusal, on_group(&source.name(), &job, unsettled)))
}

impl Source {
    /// What the job is called, fit for a terminal.
    fn name(&self) -> String {
        match self {
            Source::StandardInput => "standard input".to_string(),
            Source::File(path) => path.to_string_lossy().replace(char::is_control, "?"),
        }
    }

    /// The job text, or its start where it is longer than any job text.
    fn read(&self) -> Result<Vec<u8>, String> {
        let mut text = vec![];
        let done = match self {
            Source::StandardInput => stdin().lock().take(READ_BYTES).read_to_end(&mut text),
            Source::File(path) => File::open(path).and_then(|file| file.take(READ_BYTES).read_to_end(&mut text)),
        };
        done.map(|_| text).map_err(|error| format!("cannot read a job from '{}': {error}", self.name()))
    }
}

/// The report of a job.
fn reported(job: &Job) -> Result<Vec<u8>, Unsettled> {
    let mut buffer = vec![0; BUFFER_BYTES];
    let mut table = job.opening.clone();
    let length = report(&job.text, &mut table, &mut job.scratch(), &mut buffer)?.length;
    buffer.truncate(length);
    Ok(buffer)
}

/// The settled job as a job text.
fn handed_on(job: &Job) -> Result<Vec<u8>, Unsettled> {
    let mut buffer = vec![0; WRITTEN_BYTES];
    let mut table = job.opening.clone();
    let passes = settle(&job.text, &mut table, &mut job.scratch())?;
    let length = write(&job.text, &table, &mut buffer).map_err(|refusal| Unsettled { refusal, passes })?;
    buffer.truncate(length);
    Ok(buffer)
}

/// What a call on the group of the command line prints.
fn on_given(
    name: &str,
    group: &GivenGroup,
    call: fn(&GivenGroup) -> Result<String, Refusal>,
) -> Result<Vec<u8>, Failure> {
    call(group).map(String::into_bytes).map_err(|refusal| Failure::Refused(refusal, on_lists(name, group, refusal)))
}

/// A group's line of a report, for the group of the command line.
fn levelled(group: &GivenGroup) -> Result<String, Refusal> {
    let members = &group.members;
    let mut plan = vec![0; members.lows.len()];
    let found = level(&members.lows, &members.highs, &members.marks, group.total, &mut plan)?;
    let shares: String = plan.iter().map(|share| format!(" {share}")).collect();
    let (deviation, spread, pairs) = (found.deviation.0, found.spread.0, found.pairs.0);
    Ok(format!("(group 1 {} {deviation} {spread} {pairs} (plan{shares}))\n", found.level))
}

/// The unit lines of a report, for the group of the command line.
fn narrowed(group: &GivenGroup) -> Result<String, Refusal> {
    let (mut lows, mut highs) = (group.members.lows.clone(), group.members.highs.clone());
    narrow(&mut lows, &mut highs, &group.members.marks, group.total, group.limits)?;
    let ranges = lows.iter().zip(&highs).enumerate();
    Ok(ranges.map(|(index, (low, high))| format!("(unit {} {low} {high})\n", index + 1)).collect())
}
