//! The planner in plain Rust, written from the specification alone: what the proved library is compared with,
//! in its answers and in its speed.

pub mod ailment;
pub mod level;
pub mod narrow;
pub mod reader;
pub mod report;
pub mod settle;
pub mod write;

pub use level::level;
pub use narrow::narrow;
pub use reader::read;
pub use report::{program, refusal_line, report};
pub use settle::settle;
pub use write::{hand_on, write};

/// The greatest share.
pub const GREATEST_SHARE: u64 = 1_000_000;
/// The greatest total of a group.
pub const GREATEST_TOTAL: u64 = 256_000_000;
/// The greatest deviation limit.
pub const GREATEST_DEVIATION: u64 = 100_000_000_000;
/// The greatest spread limit.
pub const GREATEST_SPREAD: u64 = 100_000_000_000_000_000;
/// The greatest limit of the pair differences.
pub const GREATEST_PAIRS: u64 = 100_000_000_000;
/// The mark of a running member.
pub const RUNNING: u64 = 0;
/// The mark of a shut member.
pub const SHUT: u64 = 1;
/// The most members of a group, and the most units of a job.
pub const MOST_UNITS: usize = 256;
/// The most groups of a job.
pub const MOST_GROUPS: usize = 64;
/// The most memberships of a job.
pub const MOST_MEMBERSHIPS: usize = 4_096;
/// The most bytes of a job text, and the fewest of a report buffer.
pub const MOST_BYTES: usize = 65_536;
/// The numbers of scratch for each unit.
pub const SCRATCH_PER_UNIT: usize = 8;
