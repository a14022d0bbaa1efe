//! Refusals of the calls on a job text in every combination; and every number of the table, and every byte of the
//! buffer, after each.

use super::faults::{each_combination, fault, Fault};
use super::{fillers, with_spare};
use crate::calls::{Read, Report, Settle, Write};
use crate::check::{Checks, Topic};
use danivomel::{Range, Refusal, Unsettled};

/// What a call on a job text gets.
#[derive(Clone, Debug, PartialEq, Eq)]
struct Call {
    text: String,
    table: Vec<Range>,
    scratch: usize,
    buffer: usize,
}

/// Tries a planner's refusals of reading.
pub fn run_read(checks: &mut Checks, who: &str, read: Read) {
    checks.topic("read, refusals in every combination", who, |topic| {
        let faults: Vec<Fault<Call>> = text_faults().into_iter().chain(table_faults()).collect();
        each_combination(&sound(), &faults, |call, refusal| {
            let mut after = call.clone();
            let found = read(call.text.as_bytes(), &mut after.table);
            topic.same(call, "refusal", found.map(|_| ()), Err(refusal));
            topic.same(call, "table after the refusal", &after, call);
        });
    });
}

/// Tries a planner's refusals of settling, and those of every kind of text.
pub fn run_settle(checks: &mut Checks, who: &str, settle: Settle) {
    checks.topic("settle, refusals in every combination", who, |topic| {
        let mut refused = |call: &Call, refusal: Refusal| {
            let mut after = call.clone();
            let found = settle(call.text.as_bytes(), &mut after.table, &mut fillers(call.scratch));
            topic.same(call, "refusal", found, Err(in_pass_one(refusal)));
            topic.same(call, "table after the refusal", &after, call);
        };
        each_bad_text(&sound(), &mut refused);
        each_combination(&sound(), &settle_faults(), &mut refused);
        each_combination(&sound(), &pairs_faults(), &mut refused);
    });
}

/// Tries a planner's refusals of reporting likewise.
pub fn run_report(checks: &mut Checks, who: &str, report: Report) {
    checks.topic("report, refusals in every combination", who, |topic| {
        let mut faults = vec![fault(1, 0, |call: &mut Call| call.buffer = 65_535)];
        faults.extend(settle_faults());
        let filled = vec![0xa5; 65_536];
        let mut buffer = filled.clone();
        let mut refused = |call: &Call, refusal: Refusal| {
            let mut after = call.clone();
            let (text, scratch) = (call.text.as_bytes(), &mut fillers(call.scratch));
            let found = report(text, &mut after.table, scratch, &mut buffer[..call.buffer]);
            topic.same(call, "refusal", found, Err(in_pass_one(refusal)));
            topic.same(call, "table after the refusal", &after, call);
            topic.holds(call, "buffer after the refusal", buffer == filled);
        };
        each_bad_text(&sound(), &mut refused);
        each_combination(&sound(), &faults, &mut refused);
        each_combination(&sound(), &pairs_faults(), &mut refused);
    });
}

/// Tries a planner's refusals of writing; and those of every kind of text ahead of every set of other faults.
pub fn run_write(checks: &mut Checks, who: &str, write: Write) {
    checks.topic("write, refusals in every combination", who, |topic| {
        let call = Call { buffer: WRITTEN.len(), ..sound() };
        let mut faults = table_faults();
        faults.extend(range_faults());
        faults.push(fault(1, 0, |call| call.buffer = call.buffer.saturating_sub(1)));
        faults.push(fault(1, 0, |call| call.buffer = 0));
        each_bad_text(&call, |call, refusal| {
            refused_writing(topic, write, call, refusal);
            each_combination(call, &faults, |call, _| refused_writing(topic, write, call, refusal));
        });
        let all: Vec<Fault<Call>> = text_faults().into_iter().chain(faults).collect();
        each_combination(&call, &all, |call, refusal| refused_writing(topic, write, call, refusal));
        let mut buffer = vec![0xa5; call.buffer];
        let found = write(call.text.as_bytes(), &call.table, &mut buffer);
        topic.same(&call, "length without a fault", found, Ok(WRITTEN.len()));
        topic.same(&call, "buffer without a fault", &buffer[..], WRITTEN.as_bytes());
    });
}

/// Checks a refusal of writing, and that the table and every byte of the buffer kept their values.
fn refused_writing(topic: &mut Topic, write: Write, call: &Call, refusal: Refusal) {
    let (table, mut buffer) = (call.table.clone(), vec![0xa5; call.buffer]);
    topic.same(call, "refusal", write(call.text.as_bytes(), &table, &mut buffer), Err(refusal));
    topic.same(call, "table after the refusal", &table, &call.table);
    topic.holds(call, "buffer after the refusal", buffer == vec![0xa5; call.buffer]);
}

/// A refusal of settling; one for want of a plan comes in the first pass.
fn in_pass_one(refusal: Refusal) -> Unsettled {
    Unsettled { refusal, passes: u64::from(matches!(refusal.number, 11 | 12)) }
}

/// What is written for the call without a fault.
const WRITTEN: &str = "(unit 1 20)\n(unit 0 20)\n(shut)\n(unit 14 20)\n(group 21 (dev any) (spread any) (of 4 3 2))\n";

/// A call without a fault, on a table other than the unit lines; unit 3 is shut.
fn sound() -> Call {
    let text = "(unit 0 9)\n(unit 0 9)\n(shut)\n(unit 0 9)\n(group 21 (dev any) (spread any) (of 4 3 2))\n";
    let table = with_spare(&[(1, 20), (0, 20), (0, 0), (14, 20)]);
    Call { text: text.to_string(), table, scratch: 32, buffer: 65_536 }
}

/// The faults of a settling in the order in which they are looked for.
fn settle_faults() -> Vec<Fault<Call>> {
    let mut faults = text_faults();
    faults.extend(table_faults());
    faults.push(fault(1, 0, |call| call.scratch = 31));
    faults.extend(range_faults());
    faults.extend(plan_faults());
    faults
}

/// Faults of each of these kinds, every third one, and a pairs limit that no plan meets.
fn pairs_faults() -> Vec<Fault<Call>> {
    let others = text_faults().into_iter().chain(table_faults()).chain(range_faults());
    let mut faults: Vec<Fault<Call>> = others.step_by(3).chain(plan_faults()).collect();
    faults.push(fault(12, 1, |call| call.text = call.text.replace(") (of", ") (pairs 6) (of")));
    faults
}

/// A total out of reach, and a deviation limit that no plan meets.
fn plan_faults() -> Vec<Fault<Call>> {
    vec![
        fault(11, 1, |call| call.text = call.text.replace("group 21", "group 41")),
        fault(12, 1, |call| call.text = call.text.replace("dev any", "dev 13")),
    ]
}

/// Faults of the text.
fn text_faults() -> Vec<Fault<Call>> {
    vec![
        fault(2, 0, |call| call.text.push_str(&"(".repeat(65_536))),
        fault(7, 2, |call| call.text = call.text.replacen("9)\n(unit 0 9", "9)\n(unit 9 0", 1)),
        fault(13, 6, |call| call.text.push_str("(shut)")),
    ]
}

/// Texts with one fault each, with its number and place.
fn bad_texts() -> Vec<(u64, u64, String)> {
    let group = |of: &str| format!("(unit 0 9)\n(group 1 (dev any) (spread any) (of {of}))\n");
    vec![
        (2, 0, "(".repeat(65_537)),
        (13, 2, "(unit 0 9)\n(unit 0 9)".to_string()),
        (14, 2, "(unit 0 9)\n(unit 0 9))\n".to_string()),
        (15, 2, "(unit 0 9)\n(units 0 9)\n".to_string()),
        (3, 2, "(unit 0 9)\n(shut 0 0)\n".to_string()),
        (3, 2, group("1) (pairs 5")),
        (4, 1, "(unit 0 1000001)\n".to_string()),
        (4, 2, group("1").replace(" (of", " (pairs 100000000001) (of")),
        (5, 3, group("1") + "(unit 0 9)\n"),
        (5, 3, group("1") + "(shut)\n"),
        (6, 257, "(unit 0 9)\n".repeat(257)),
        (6, 257, "(shut)\n".repeat(257)),
        (7, 1, "(unit 9 0)\n".to_string()),
        (8, 2, group("2")),
        (9, 2, group("1 1")),
        (10, 0, String::new()),
    ]
}

/// Tries a call with each of these texts in the place of its own.
fn each_bad_text(call: &Call, mut attempt: impl FnMut(&Call, Refusal)) {
    for (number, place, text) in bad_texts() {
        attempt(&Call { text, ..call.clone() }, Refusal { number, place });
    }
}

/// Ranges of the table that are not allowed.
fn range_faults() -> Vec<Fault<Call>> {
    vec![
        fault(4, 1, |call| call.table[0].low = 1_000_001),
        fault(4, 3, |call| call.table[2].high = 1_000_001),
        fault(4, 4, |call| call.table[3].high = u64::MAX),
        fault(7, 1, |call| call.table[0].high = 0),
        fault(7, 2, |call| call.table[1].low = 21),
        fault(7, 3, |call| call.table[2].high = 1),
        fault(7, 4, |call| call.table[3].high = 13),
    ]
}

/// A table too short for the units.
fn table_faults() -> Vec<Fault<Call>> {
    vec![fault(1, 0, |call| call.table.truncate(3)), fault(1, 0, |call| call.table.truncate(0))]
}
