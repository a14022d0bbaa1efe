//! The peer in Gecode: a job's groups posted and propagated at the root; gecode/peer.h says how.

use crate::planners::{GECODE, GECODE_ALONE, GECODE_BY_PAIR, GECODE_BY_PAIR_ALONE};
use crate::timing::Contender;
use danivomel::Limit;
use danivomel_tests::independent::reader::Group;
use std::hint::black_box;
use std::rc::Rc;

/// How the figures are posted.
#[derive(Clone, Copy, Debug, PartialEq, Eq)]
pub enum Form {
    /// As the specification writes them.
    Written = 0,
    /// Squares about the mean, pairs from the shares in order.
    Centred = 1,
    /// Squares about the mean, pairs as the specification writes them.
    ByPair = 2,
}

/// How a propagation ends.
#[derive(Clone, Copy, Debug, PartialEq, Eq)]
pub enum Outcome {
    /// So many values are left.
    Left(u64),
    /// No plan, found at the root.
    Refused,
    /// A number is too large for Gecode.
    Beyond,
}

/// What crosses the border.
#[repr(C)]
struct Answer {
    outcome: u64,
    values: u64,
    nanoseconds: f64,
}

extern "C" {
    fn peer_propagate(
        groups: *const i64,
        groups_count: usize,
        lows: *mut u64,
        highs: *mut u64,
        units: usize,
        form: i32,
    ) -> Answer;
}

/// Groups as one list of numbers.
pub struct Posted(Vec<i64>);

impl Posted {
    /// Some groups as numbers.
    pub fn of(groups: &[Group]) -> Posted {
        let mut numbers = vec![];
        for group in groups {
            numbers.push(group.total as i64);
            numbers.push(limit(group.limits.deviation));
            numbers.push(limit(group.limits.spread));
            numbers.push(limit(group.limits.pairs));
            numbers.push(group.members.len() as i64);
            numbers.extend(group.members.iter().map(|&unit| unit as i64));
        }
        Posted(numbers)
    }
}

/// A limit as a number; one below 0 is none.
fn limit(limit: Limit) -> i64 {
    match limit {
        Limit::Any => -1,
        Limit::AtMost(most) => most as i64,
    }
}

/// Posts and propagates; writes the ends of what is left, and answers the nanoseconds of the propagation alone too.
pub fn propagate(posted: &Posted, lows: &mut [u64], highs: &mut [u64], form: Form) -> (Outcome, f64) {
    assert_eq!(lows.len(), highs.len(), "a table has a low and a high for each unit");
    let groups = &posted.0;
    // SAFETY: each pointer and count is a slice's, and members are units of the table.
    let answer = unsafe {
        peer_propagate(groups.as_ptr(), groups.len(), lows.as_mut_ptr(), highs.as_mut_ptr(), lows.len(), form as i32)
    };
    let outcome = match answer.outcome {
        0 => Outcome::Left(answer.values),
        1 => Outcome::Refused,
        _ => Outcome::Beyond,
    };
    (outcome, answer.nanoseconds)
}

/// Ranges, and the groups that are posted over them.
pub struct Problem<'a> {
    pub lows: &'a [u64],
    pub highs: &'a [u64],
    pub posted: Posted,
}

/// Two contenders that post and propagate all problems in a form: one timed whole, one for its propagation alone.
pub fn contenders<'a>(problems: Vec<Problem<'a>>, form: Form) -> [Contender<'a>; 2] {
    let (name, name_alone) = match form {
        Form::ByPair => (GECODE_BY_PAIR, GECODE_BY_PAIR_ALONE),
        _ => (GECODE, GECODE_ALONE),
    };
    let problems = Rc::new(problems);
    let (mut whole, mut alone) = (work(problems.clone(), form), work(problems, form));
    [
        Contender::whole(name, move || {
            whole();
        }),
        Contender::part(name_alone, move || alone() / 1_000.0),
    ]
}

/// Posts and propagates all problems, and answers the nanoseconds of the propagation alone.
fn work<'a>(problems: Rc<Vec<Problem<'a>>>, form: Form) -> impl FnMut() -> f64 + 'a {
    let (mut lows, mut highs) = (vec![], vec![]);
    move || {
        let mut nanoseconds = 0.0;
        for Problem { lows: opening_lows, highs: opening_highs, posted } in problems.iter() {
            lows.clear();
            highs.clear();
            lows.extend_from_slice(opening_lows);
            highs.extend_from_slice(opening_highs);
            nanoseconds += propagate(black_box(posted), &mut lows, &mut highs, form).1;
        }
        nanoseconds
    }
}
