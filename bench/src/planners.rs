//! Who takes part, by name.

use crate::plain;
use danivomel_tests::calls::{Level, Narrow, Read, Report, Settle, Write};
use danivomel_tests::independent;

/// The proved planner, from its archive.
pub const PLANNER: &str = "planner";
/// The independent planner of tests/, in plain Rust: ends by bisection, each step a walk over the group.
pub const BISECTION: &str = "plain Rust, bisection";
/// The same in plain Rust the way that the proved planner goes: the bounds sorted once, ends by Newton's steps over the values
/// on the rows, and outcomes that members share.
pub const ROWS: &str = "plain Rust, rows";
/// The proved planner on the running members alone, where others have shut members too.
pub const ALONE: &str = "planner, running members alone";
/// The proved planner on the same groups with a total that leaves no copy over.
pub const NONE_LEFT: &str = "planner, no copy left over";
/// The proved planner on the same groups without their pairs limit.
pub const WITHOUT: &str = "planner, without the pairs limit";
/// Plain Rust of the same way likewise.
pub const ROWS_WITHOUT: &str = "plain Rust, rows, without the pairs limit";
/// Gecode with squares posted about the mean, and pairs from the shares in order: making the variables, posting and propagating.
pub const GECODE: &str = "Gecode";
/// Of that, the propagation alone.
pub const GECODE_ALONE: &str = "Gecode, propagation alone";
/// Gecode with squares posted about the mean, and a distance for each pair.
pub const GECODE_BY_PAIR: &str = "Gecode, pair by pair";
/// Of that, the propagation alone.
pub const GECODE_BY_PAIR_ALONE: &str = "Gecode, pair by pair, propagation alone";

/// Who levels.
pub const LEVELS: &[(&str, Level)] = &[(BISECTION, independent::level), (PLANNER, danivomel::level)];

/// Who narrows.
pub const NARROWS: &[(&str, Narrow)] =
    &[(BISECTION, independent::narrow), (ROWS, plain::narrow), (PLANNER, danivomel::narrow)];

/// Who reads.
pub const READS: &[(&str, Read)] = &[(BISECTION, independent::read), (PLANNER, danivomel::read)];

/// Who settles.
pub const SETTLES: &[(&str, Settle)] =
    &[(BISECTION, independent::settle), (ROWS, plain::settle), (PLANNER, danivomel::settle)];

/// Who reports.
pub const REPORTS: &[(&str, Report)] = &[(BISECTION, independent::report), (PLANNER, danivomel::report)];

/// Who writes.
pub const WRITES: &[(&str, Write)] = &[(BISECTION, independent::write), (PLANNER, danivomel::write)];
