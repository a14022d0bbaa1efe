//! Timing contenders in turn: round by round each one does the same work, so that what else the machine does hits all
//! of them; medians over the rounds.

use std::time::Instant;

/// The seconds that one comparison may take, where its calls are short enough; and those of a trial.
const SECONDS: (f64, f64) = (2.0, 0.05);
/// The fewest and the most rounds.
const ROUNDS: (f64, f64) = (7.0, 201.0);
/// The microseconds of a contender's turn in a round, or one call: short, so that other work hits few rounds.
const TURN: f64 = 300.0;
/// A contender's turn is at least this part of the slowest one's, so that what interrupts both weighs the same.
const PART: f64 = 0.1;

/// Does the work so many times, and answers the microseconds of them all.
pub type Run<'a> = Box<dyn FnMut(u32) -> f64 + 'a>;

/// One contender of a comparison.
pub struct Contender<'a> {
    pub name: &'static str,
    pub run: Run<'a>,
}

impl<'a> Contender<'a> {
    /// A contender that is timed as a whole.
    pub fn whole(name: &'static str, mut work: impl FnMut() + 'a) -> Contender<'a> {
        let run = move |calls| {
            let start = Instant::now();
            for _ in 0..calls {
                work();
            }
            start.elapsed().as_secs_f64() * 1e6
        };
        Contender { name, run: Box::new(run) }
    }

    /// A contender that tells the microseconds of the part that counts.
    pub fn part(name: &'static str, mut work: impl FnMut() -> f64 + 'a) -> Contender<'a> {
        Contender { name, run: Box::new(move |calls| (0..calls).map(|_| work()).sum()) }
    }
}

/// What a comparison found: for each contender, by name, the microseconds of one item in each round.
#[derive(Default)]
pub struct Times(Vec<(&'static str, Vec<f64>)>);

impl Times {
    /// The median microseconds of a contender, where it took part.
    pub fn of(&self, name: &str) -> Option<f64> {
        self.rounds(name).map(|rounds| median(rounds.to_vec()))
    }

    /// The median over the rounds of one contender's time to another's.
    pub fn ratio(&self, own: &str, other: &str) -> Option<f64> {
        let (own, other) = (self.rounds(own)?, self.rounds(other)?);
        Some(median(own.iter().zip(other).map(|(own, other)| own / other).collect()))
    }

    /// A contender's rounds.
    fn rounds(&self, name: &str) -> Option<&[f64]> {
        self.0.iter().find(|(who, _)| *who == name).map(|(_, rounds)| rounds.as_slice())
    }
}

/// Whether this is a trial, which is short and writes nothing.
pub fn is_trial() -> bool {
    std::env::args().nth(1).is_some_and(|word| word == "trial")
}

/// Times the contenders in turn; a call of each handles so many items, and the times are those of one.
pub fn in_turn(mut contenders: Vec<Contender>, items: usize) -> Times {
    let once: Vec<(f64, f64)> = contenders.iter_mut().map(|contender| once(&mut contender.run)).collect();
    let turn = once.iter().fold(TURN, |turn, (time, _)| turn.max(PART * time));
    let calls: Vec<u32> = once.iter().map(|(time, _)| (turn / time.max(0.01)).clamp(1.0, 10_000.0) as u32).collect();
    let round: f64 = once.iter().zip(&calls).map(|((_, spent), &calls)| spent * f64::from(calls)).sum();
    let seconds = if is_trial() { SECONDS.1 } else { SECONDS.0 };
    let rounds = (seconds / round).clamp(ROUNDS.0, ROUNDS.1) as usize;
    let mut times: Vec<(&str, Vec<f64>)> = contenders.iter().map(|contender| (contender.name, vec![])).collect();
    for _ in 0..rounds {
        for ((contender, &calls), (_, rounds)) in contenders.iter_mut().zip(&calls).zip(&mut times) {
            rounds.push((contender.run)(calls) / f64::from(calls) / items as f64);
        }
    }
    Times(times)
}

/// One call after another one: the microseconds that it tells, and the seconds that it took.
fn once(run: &mut Run) -> (f64, f64) {
    run(1);
    let start = Instant::now();
    let time = run(1);
    (time, start.elapsed().as_secs_f64())
}

/// The middle of some numbers.
pub fn median(mut numbers: Vec<f64>) -> f64 {
    numbers.sort_by(f64::total_cmp);
    numbers[numbers.len() / 2]
}
