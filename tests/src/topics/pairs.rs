//! Pair differences: the figure by other ways than the brute force's, limits that say the same of two members or of none,
//! where a pairs limit may stand on a group line, and known reports and texts of jobs with one.

use super::fillers;
use super::read::{accepted, rebuilt, refused, Shown};
use super::report::WORKED_REPORT;
use super::settle::WORKED;
use super::shut::{reported, whole, written};
use crate::calls::{table, Level, Narrow, OnTexts, Read};
use crate::cases::groups::{large, small, GroupCase};
use crate::cases::jobs::{print_job, sound, MIDDLE, TINY};
use crate::check::{Checks, Topic};
use crate::enumerate::{running, Range};
use crate::independent::{GREATEST_PAIRS, MOST_UNITS};
use crate::random::Random;
use danivomel::{Levelled, Limit, Limits, Refusal};
use Limit::{Any, AtMost};

/// Tries a planner's pair differences on the lists of one group.
pub fn run_lists(checks: &mut Checks, who: &str, level: Level, narrow: Narrow) {
    checks.topic("pairs, the figure by other ways", who, |topic| figures(topic, level));
    checks.topic("pairs, limits of 0 and of nothing", who, |topic| far_limits(topic, narrow));
    checks.topic("pairs, two running members", who, |topic| two_members(topic, narrow));
}

/// Tries a planner's pairs limits in job texts.
pub fn run_texts(checks: &mut Checks, who: &str, planner: OnTexts) {
    checks.topic("pairs, where a limit may stand", who, |topic| places(topic, planner.read));
    checks.topic("pairs, known reports", who, |topic| reports(topic, planner));
    checks.topic("pairs, known texts", who, |topic| texts(topic, planner));
    checks.topic("pairs, none is any", who, |topic| none_is_any(topic, planner));
}

/// The figure of groups' levelled shares, small ones and large.
fn figures(topic: &mut Topic, level: Level) {
    for round in 0..4_000 {
        let case = if round % 2 == 0 { small(&mut topic.random) } else { large(&mut topic.random, MOST_UNITS) };
        let mut plan = fillers(case.lows.len());
        if let Ok(levelled) = level(&case.lows, &case.highs, &case.marks, case.total, &mut plan) {
            figure_by_law(topic, &case, levelled, running(&plan, &case.marks));
        }
    }
}

/// The figure by 003's second equation and by layers; and what it can be beside the other two figures.
fn figure_by_law(topic: &mut Topic, case: &GroupCase, levelled: Levelled, mut shares: Vec<u64>) {
    shares.sort_unstable();
    let (n, found) = (shares.len() as i128, i128::from(levelled.pairs.0));
    let weighed = shares.iter().zip(1..).map(|(&share, i)| (2 * i - n - 1) * i128::from(share));
    topic.same(case, "003, equation 2", found, weighed.sum());
    // between neighbours, so many shares lie above and the others below: each of those pairs has the step between them
    let layers = shares.windows(2).zip(1..).map(|(step, below)| (n - below) * below * i128::from(step[1] - step[0]));
    topic.same(case, "by layers", found, layers.sum());
    let (deviation, spread) = (i128::from(levelled.deviation.0), i128::from(levelled.spread.0));
    topic.holds(case, "at least half of the deviation", deviation <= 2 * found);
    topic.holds(case, "at most the spread", found <= spread);
    topic.holds(case, "its square within the spread for all pairs", 2 * found * found <= n * (n - 1) * spread);
}

/// What a narrowing under some limits leaves.
fn narrowed(narrow: Narrow, case: &GroupCase, limits: Limits) -> Result<Vec<Range>, Refusal> {
    let mut after = case.clone();
    narrow(&mut after.lows, &mut after.highs, &case.marks, case.total, limits)?;
    Ok(after.ranges())
}

/// The greatest limit is beyond every figure, so it narrows as any does; one past it is 4; and a limit of 0 leaves even
/// shares alone, whichever figure it is of.
fn far_limits(topic: &mut Topic, narrow: Narrow) {
    for round in 0..1_500 {
        let most = if round % 50 == 0 { MOST_UNITS } else { 12 };
        let mut case = if round % 2 == 0 { small(&mut topic.random) } else { large(&mut topic.random, most) };
        let under = |pairs| narrowed(narrow, &case, Limits { pairs, ..Limits::ANY });
        topic.same(&case, "the greatest limit", under(AtMost(GREATEST_PAIRS)), under(Any));
        for beyond in [GREATEST_PAIRS + 1, 1 << 63, u64::MAX] {
            topic.same(&case, "beyond it", under(AtMost(beyond)), Err(Refusal { number: 4, place: 0 }));
        }
        even_total(&mut case);
        let [deviation, spread, pairs] = each_alone(0, 0, 0).map(|limits| narrowed(narrow, &case, limits));
        topic.same(&case, "0 of deviation and of pairs", &pairs, &deviation);
        topic.same(&case, "0 of spread and of pairs", &pairs, &spread);
    }
}

/// Takes what is over off a group's total, so that its running members can have even shares.
fn even_total(case: &mut GroupCase) {
    let n = case.running().lows.len() as u64;
    case.total -= case.total.checked_rem(n).unwrap_or(0);
}

/// Limits of each figure, with the others any.
fn each_alone(deviation: u64, spread: u64, pairs: u64) -> [Limits; 3] {
    [
        Limits { deviation: AtMost(deviation), ..Limits::ANY },
        Limits { spread: AtMost(spread), ..Limits::ANY },
        Limits { pairs: AtMost(pairs), ..Limits::ANY },
    ]
}

/// A group with two running members.
fn two_running(random: &mut Random) -> GroupCase {
    let mut cases = std::iter::repeat_with(|| large(random, 4));
    cases.find(|case| case.running().lows.len() == 2).expect("such groups come often")
}

/// Two running members that are d apart have deviation 2 × d, spread d × d and pairs d: each limit says the same.
fn two_members(topic: &mut Topic, narrow: Narrow) {
    for _ in 0..3_000 {
        let case = two_running(&mut topic.random);
        let apart = match topic.random.between(0, 2) {
            0 => topic.random.between(0, 3),
            1 => topic.random.between(0, 2_000),
            _ => topic.random.between(0, 1_000_000),
        };
        let [deviation, spread, pairs] =
            each_alone(2 * apart, apart * apart, apart).map(|limits| narrowed(narrow, &case, limits));
        topic.same(&(&case, apart), "deviation and pairs", &pairs, &deviation);
        topic.same(&(&case, apart), "spread and pairs", &pairs, &spread);
    }
}

/// What may stand between the spread's bracket and the members': a space alone, or a pairs limit between two.
const SOUND: [&str; 5] = [" ", " (pairs any) ", " (pairs 0) ", " (pairs 5) ", " (pairs 100000000000) "];

/// What may not, and its refusal.
const UNSOUND: [(u64, &str); 38] = [
    (3, ""),
    (3, "  "),
    (3, " (pairs) "),
    (3, " (pairs ) "),
    (3, " (pairs  5) "),
    (3, " (pairs 5 ) "),
    (3, " ( pairs 5) "),
    (3, " (pairs5) "),
    (3, " (pairs 05) "),
    (3, " (pairs 00) "),
    (3, " (pairs -5) "),
    (3, " (pairs 5 5) "),
    (3, " (pairs any any) "),
    (3, " (pairs 5any) "),
    (3, " (pairs any5) "),
    (3, " (pairs Any) "),
    (3, " (pairs an) "),
    (3, " (pairs\t5) "),
    (3, " (pairs (5)) "),
    (3, " ((pairs 5)) "),
    (3, " pairs 5 "),
    (3, " (pair 5) "),
    (3, " (pairss 5) "),
    (3, " (Pairs 5) "),
    (3, " (5) "),
    (3, "  (pairs 5) "),
    (3, " (pairs 5)  "),
    (3, "(pairs 5) "),
    (3, " (pairs 5)"),
    (3, " (pairs 5) (pairs 5) "),
    (3, " (pairs any) (pairs any) "),
    (3, " (pairs 5) (spread 5) "),
    (3, " (pairs 5) (dev 5) "),
    (4, " (pairs 100000000001) "),
    (4, " (pairs 18446744073709551616) "),
    (4, " (pairs 99999999999999999999999999999999) "),
    (14, " (pairs 5 "),
    (14, " (pairs 5)) "),
];

/// Lines with a pairs limit where none may stand, and their refusals.
const MISPLACED: [(u64, &str); 12] = [
    (3, "(group (pairs 5) 5 (dev any) (spread any) (of 1))"),
    (3, "(group 5 (pairs 5) (dev any) (spread any) (of 1))"),
    (3, "(group 5 (dev any) (pairs 5) (spread any) (of 1))"),
    (3, "(group 5 (dev any) (pairs 5) (spread any) (pairs 5) (of 1))"),
    (3, "(group 5 (dev any) (spread any) (of 1) (pairs 5))"),
    (3, "(group 5 (dev any) (spread any) (pairs 5) (of 1) (pairs 5))"),
    (3, "(group 5 (dev any) (spread any) (of 1 (pairs 5)))"),
    (3, "(group 5 (dev any) (spread any) (pairs 5))"),
    (3, "(group 5 (dev any) (pairs 5) (of 1))"),
    (3, "(unit 0 9 (pairs 5))"),
    (3, "(shut (pairs 5))"),
    (15, "(pairs 5)"),
];

/// A pairs limit stands right behind the spread's, once, in the form of a limit.
fn places(topic: &mut Topic, read: Read) {
    let text = |line: &str| format!("(unit 0 9)\n(shut)\n{line}\n");
    for between in SOUND {
        for (spread, of) in [("any", "1"), ("0", "2"), ("100000000000000000", "2 1")] {
            let line = format!("(group 5 (dev any) (spread {spread}){between}(of {of}))");
            accepted(topic, read, text(&line).as_bytes(), 2, 1);
            rebuilt(topic, read, text(&line).as_bytes());
        }
    }
    let unsound = UNSOUND.map(|(number, between)| (number, format!("(group 5 (dev any) (spread any){between}(of 1))")));
    for (number, line) in unsound.into_iter().chain(MISPLACED.map(|(number, line)| (number, line.to_string()))) {
        refused(topic, read, text(&line).as_bytes(), number, 3);
        refused(topic, read, text(&line).trim_end().as_bytes(), 13, 3);
        rebuilt(topic, read, text(&line).as_bytes());
    }
}

/// Known reports: those of the press and the worked job by pairs limits, and limits of groups with shut members.
fn reports(topic: &mut Topic, planner: OnTexts) {
    let mut known = |text: &str, expected: Result<&str, (u64, u64)>| {
        let expected = expected.map(str::to_string).map_err(|(number, place)| Refusal { number, place });
        topic.same(&text, "report", whole(planner, text), expected);
    };
    let group = |total, pairs, of| format!("(group {total} (dev any) (spread any) (pairs {pairs}) (of {of}))\n");
    let press = |pairs| "(unit 8 10)\n(unit 4 7)\n(unit 1 5)\n(unit 3 4)\n".to_string() + &group(20, pairs, "1 2 3 4");
    let some =
        "(settled 2)\n(unit 1 8 8)\n(unit 2 4 5)\n(unit 3 3 5)\n(unit 4 3 4)\n(group 1 4 24 48 12 (plan 8 4 4 4))\n";
    let only = "(settled 2)\n(unit 1 8 8)\n(unit 2 4 4)\n(unit 3 4 4)\n(unit 4 4 4)\n(group 1 1000000 24 48 12 (plan 8 4 4 4))\n";
    known(&press(16), Ok(some));
    known(&press(15), Ok(only));
    known(&press(12), Ok(only));
    known(&press(11), Err((12, 1)));
    // two members 2 apart have deviation 4, spread 4 and pairs 2
    known(&WORKED.replace("(dev any) (spread 4)", "(dev any) (spread any) (pairs 2)"), Ok(WORKED_REPORT));
    known(&WORKED.replace("(dev 4) (spread any)", "(dev any) (spread any) (pairs 3)"), Ok(WORKED_REPORT));
    let three = |second, pairs| format!("(unit 0 9)\n{second}\n(unit 0 9)\n{}", group(6, pairs, "1 2 3"));
    let even = "(settled 2)\n(unit 1 3 3)\n(unit 2 0 0)\n(unit 3 3 3)\n(group 1 1000000 0 0 0 (plan 3 0 3))\n";
    known(&three("(shut)", 0), Ok(even));
    known(&three("(unit 0 0)", 5), Err((12, 1)));
    known(&three("(unit 0 0)", 6), Ok(&even.replace(" 0 0 0 (plan", " 12 18 6 (plan")));
    let all = |total| format!("(shut)\n(shut)\n{}", group(total, 0, "2 1"));
    known(&all(0), Ok("(settled 1)\n(unit 1 0 0)\n(unit 2 0 0)\n(group 1 1000000 0 0 0 (plan 0 0))\n"));
    known(&all(1), Err((11, 1)));
}

/// Known texts: a pairs limit is written where the group's line has one, any too, and nowhere else.
fn texts(topic: &mut Topic, planner: OnTexts) {
    for first in SOUND {
        for second in SOUND {
            let groups = |table: &str| {
                format!("{table}(group 4 (dev 7) (spread any){first}(of 2 1))\n(group 9 (dev any) (spread 8){second}(of 1))\n")
            };
            let (text, expected) = (groups("(unit 0 9)\n(shut)\n"), groups("(unit 3 4)\n(shut)\n"));
            let found = written(planner, text.as_bytes(), &table(&[3, 0], &[4, 0]));
            topic.same(&text, "text", found, Ok(expected));
        }
    }
}

/// A group whose line has no pairs limit settles and reports as with the limit any.
fn none_is_any(topic: &mut Topic, planner: OnTexts) {
    for round in 0..2_000 {
        let job = sound(&mut topic.random, if round % 2 == 0 { TINY } else { MIDDLE });
        let mut saying = job.clone();
        saying.groups.iter_mut().for_each(|group| group.says_pairs = true);
        let opening = table(&job.lows, &job.highs);
        let [found, expected] = [&saying, &job].map(|job| reported(planner, &print_job(job), &opening));
        topic.same(&Shown(&print_job(&job)), "answer, table and report", found, expected);
    }
}
