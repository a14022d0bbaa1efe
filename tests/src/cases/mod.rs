//! Random cases: groups, jobs, tables lent for them, and damaged job texts.

pub mod damage;
pub mod groups;
pub mod jobs;
pub mod tables;
