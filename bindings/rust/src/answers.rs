//! What the calls take and answer.

/// The deviation of n running members' shares: the sum of |n × share − total|. Divided by n it is in copies. It is 0 where
/// no member runs.
#[repr(C)]
#[derive(Clone, Copy, Debug, PartialEq, Eq, PartialOrd, Ord)]
pub struct Deviation(pub u64);

/// The spread of n running members' shares: n × (sum of squared shares) − total × total. It is 0 where no member runs.
#[repr(C)]
#[derive(Clone, Copy, Debug, PartialEq, Eq, PartialOrd, Ord)]
pub struct Spread(pub u64);

/// The pair differences of running members' shares: the sum of larger less smaller share over all pairs of them, each pair
/// once. It is 0 where no member runs.
#[repr(C)]
#[derive(Clone, Copy, Debug, PartialEq, Eq, PartialOrd, Ord)]
pub struct Pairs(pub u64);

/// A limit of a figure. It lies in memory as the header has it, the mark `any` and then the number, and crosses as it is.
#[repr(u8)]
#[derive(Clone, Copy, Debug, PartialEq, Eq)]
pub enum Limit {
    /// The figure is at most this number.
    AtMost(u64) = 0,
    /// Limits nothing.
    Any = 1,
}

/// The three limits of a group.
#[repr(C)]
#[derive(Clone, Copy, Debug, PartialEq, Eq)]
pub struct Limits {
    /// The deviation's limit, a number from 0 to 100,000,000,000.
    pub deviation: Limit,
    /// The spread's limit, a number from 0 to 100,000,000,000,000,000.
    pub spread: Limit,
    /// The pair differences' limit, a number from 0 to 100,000,000,000.
    pub pairs: Limit,
}

impl Limits {
    /// Limits that allow everything.
    pub const ANY: Limits = Limits { deviation: Limit::Any, spread: Limit::Any, pairs: Limit::Any };
}

/// The range of a unit, from 0 to 1,000,000: an entry of a table. Unit 1 is the table's first entry.
#[repr(C)]
#[derive(Clone, Copy, Debug, Default, PartialEq, Eq)]
pub struct Range {
    /// The fewest copies that the unit can take.
    pub low: u64,
    /// The most copies that the unit can take.
    pub high: u64,
}

/// What levelling answers beside the shares.
#[derive(Clone, Copy, Debug, PartialEq, Eq)]
pub struct Levelled {
    /// Each member takes this share, or its own low or high where the level is outside; copies left over go one each to
    /// the members with the most room up to their high (high − level), among equals to the earlier. 1,000,000 where all
    /// members are at their highs.
    pub level: u64,
    /// The shares' deviation, the least that can be had.
    pub deviation: Deviation,
    /// The shares' spread, the least that can be had.
    pub spread: Spread,
    /// The shares' pair differences, the least that can be had.
    pub pairs: Pairs,
}

/// What reading a job text answers.
#[derive(Clone, Copy, Debug, PartialEq, Eq)]
pub struct Counts {
    /// How many units the job has: the table's first so many entries are filled.
    pub units: usize,
    /// How many groups the job has.
    pub groups: usize,
}

/// What reporting answers.
#[derive(Clone, Copy, Debug, PartialEq, Eq)]
pub struct Reported {
    /// How many bytes of the buffer the report has.
    pub length: usize,
    /// The passes of the settling, the quiet one counted.
    pub passes: u64,
}
