//! Settling jobs: random ones that settle, the slow one, and the specification's worked job.

use crate::check::{covers, same};
use crate::gecode::{self, Form, Outcome, Posted, Problem};
use crate::jobs::{job, slow_job};
use crate::planners::{BISECTION, GECODE, GECODE_ALONE, PLANNER, ROWS, SETTLES};
use crate::table::{digits, Table};
use crate::timing::{in_turn, Contender, Times};
use crate::work::values;
use danivomel::Unsettled;
use danivomel_tests::calls::{self, lists, Settle};
use danivomel_tests::cases::jobs::print_job;
use danivomel_tests::independent::reader::{read_job, Job};
use danivomel_tests::independent::{self, SCRATCH_PER_UNIT};
use danivomel_tests::topics::settle::WORKED;
use std::hint::black_box;

/// A job with its text, and the answer and the table that the independent planner leaves.
pub struct Case {
    name: String,
    job: Job,
    text: Vec<u8>,
    answer: Result<u64, Unsettled>,
    lows: Vec<u64>,
    highs: Vec<u64>,
}

/// The columns of the table.
const HEAD: [&str; 12] = [
    "job",
    "answer",
    "turns",
    "planner, µs",
    "plain Rust, bisection, µs",
    "plain Rust, rows, µs",
    "Gecode, µs",
    "Gecode, propagation alone, µs",
    "planner / plain Rust, same way",
    "planner, ns a member and turn",
    "plain Rust, rows, ns a member and turn",
    "values that Gecode leaves too many",
];

/// Times settling; the times by job.
pub fn run() -> (Table, Vec<(String, Times)>) {
    let mut table = Table::new("settle", &HEAD);
    let mut all = vec![];
    for case in cases() {
        let mut contenders: Vec<Contender> = SETTLES.iter().map(|who| contender(*who, &case)).collect();
        let left = compare_gecode(&case);
        let posted = Posted::of(&case.job.groups);
        let problem = Problem { lows: &case.job.lows, highs: &case.job.highs, posted };
        contenders.extend(gecode::contenders(vec![problem], Form::Centred));
        let times = in_turn(contenders, 1);
        let (turns, visits) = case.turns();
        let a_visit = |time: Option<f64>| digits(time.map(|time| 1_000.0 * time / visits as f64));
        table.add(vec![
            case.name.clone(),
            case.shown_answer(),
            turns.to_string(),
            digits(times.of(PLANNER)),
            digits(times.of(BISECTION)),
            digits(times.of(ROWS)),
            digits(times.of(GECODE)),
            digits(times.of(GECODE_ALONE)),
            digits(times.ratio(PLANNER, ROWS)),
            a_visit(times.of(PLANNER)),
            a_visit(times.of(ROWS)),
            left,
        ]);
        all.push((case.name.clone(), times));
    }
    (table, all)
}

/// The jobs, settled.
fn cases() -> Vec<Case> {
    let mut jobs = vec![];
    for (groups, n) in [(8, 8), (16, 8), (32, 8), (64, 8), (16, 64), (16, 256), (64, 64)] {
        jobs.push((format!("{groups} × {n}"), job(groups, n)));
    }
    jobs.push(("slow, two groups of 2".to_string(), slow_job(1_000)));
    jobs.push(("worked".to_string(), read_job(WORKED.as_bytes()).expect("the worked job is sound")));
    jobs.into_iter().map(|(name, job)| Case::of(name, job)).collect()
}

impl Case {
    /// A job with what the independent planner says of it.
    pub fn of(name: String, job: Job) -> Case {
        let (text, mut table) = (print_job(&job), calls::table(&job.lows, &job.highs));
        let mut scratch = vec![0; SCRATCH_PER_UNIT * table.len()];
        let answer = independent::settle(&text, &mut table, &mut scratch);
        let (lows, highs) = lists(&table);
        Case { name, job, text, answer, lows, highs }
    }

    /// The answer in words.
    fn shown_answer(&self) -> String {
        match self.answer {
            Ok(passes) => format!("settled, {passes} passes"),
            Err(Unsettled { refusal, passes }) => format!("refused {}, {passes} passes", refusal.number),
        }
    }

    /// The turns taken, and the members that they visited.
    fn turns(&self) -> (u64, u64) {
        let groups = &self.job.groups;
        let (whole, last) = match self.answer {
            Ok(passes) => (passes, 0),
            Err(Unsettled { refusal, passes }) => (passes - 1, refusal.place),
        };
        let visits = |count: usize| groups[..count].iter().map(|group| group.members.len() as u64).sum::<u64>();
        (whole * groups.len() as u64 + last, whole * visits(groups.len()) + visits(last as usize))
    }
}

/// A contender that settles a job from its opening table, after its answer and its table were compared.
pub fn contender<'a>(who: (&'static str, Settle), case: &'a Case) -> Contender<'a> {
    let (name, settle) = who;
    let opening = calls::table(&case.job.lows, &case.job.highs);
    let mut table = opening.clone();
    let mut scratch = vec![0; SCRATCH_PER_UNIT * table.len()];
    same(name, &case.name, settle(&case.text, &mut table, &mut scratch), case.answer);
    same(name, &case.name, &table, &calls::table(&case.lows, &case.highs));
    Contender::whole(name, move || {
        table.copy_from_slice(&opening);
        let _ = black_box(settle(black_box(&case.text), &mut table, &mut scratch));
    })
}

/// Checks that Gecode keeps every value of the settled table and refuses only what is refused; how many more it keeps.
fn compare_gecode(case: &Case) -> String {
    let (mut lows, mut highs) = (case.job.lows.clone(), case.job.highs.clone());
    match gecode::propagate(&Posted::of(&case.job.groups), &mut lows, &mut highs, Form::Centred).0 {
        Outcome::Left(left) if case.answer.is_ok() => {
            covers(GECODE, &case.name, (&lows, &highs), (&case.lows, &case.highs));
            let settled = values(&case.lows, &case.highs);
            format!("{} beside {settled}", left - settled)
        }
        Outcome::Left(left) => format!("{left}; misses the refusal"),
        Outcome::Refused => {
            same(GECODE, &case.name, case.answer.is_err(), true);
            "refuses too".to_string()
        }
        Outcome::Beyond => panic!("Gecode cannot take the job {}", case.name),
    }
}
