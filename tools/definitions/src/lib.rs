//! Lists the definitions that there are to believe: those that the contracts of the entry points and the laws named in
//! docs/PROMISES.md lead to.

pub mod faults;
pub mod file;
pub mod listing;
pub mod origins;
pub mod reach;
pub mod sources;
pub mod specs;
pub mod tree;
pub mod words;
