//! Tests of the planner: an independent planner written from the specification, brute force over small groups and
//! jobs, and comparisons of every call with both.

pub mod calls;
pub mod cases;
pub mod check;
pub mod enumerate;
pub mod independent;
pub mod random;
pub mod rebuild;
pub mod topics;
