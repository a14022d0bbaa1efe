//! What is measured is compared once with the independent planner; a difference ends the run.

use std::fmt::Debug;
use std::sync::atomic::{AtomicU64, Ordering};

/// How many answers were compared.
static COMPARED: AtomicU64 = AtomicU64::new(0);

/// Compares an answer with the one that is expected.
pub fn same<T: PartialEq + Debug>(who: &str, what: &str, found: T, expected: T) {
    COMPARED.fetch_add(1, Ordering::Relaxed);
    assert_eq!(found, expected, "{who} answers otherwise than the independent planner: {what}");
}

/// Checks that a peer which may leave too much has left every value that some plan takes.
pub fn covers(who: &str, what: &str, left: (&[u64], &[u64]), taken: (&[u64], &[u64])) {
    COMPARED.fetch_add(1, Ordering::Relaxed);
    let lows = left.0.iter().zip(taken.0).all(|(left, taken)| left <= taken);
    let highs = left.1.iter().zip(taken.1).all(|(left, taken)| left >= taken);
    assert!(lows && highs, "{who} loses a value that some plan takes: {what}");
}

/// How many answers were compared so far.
pub fn compared() -> u64 {
    COMPARED.load(Ordering::Relaxed)
}
