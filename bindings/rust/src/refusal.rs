//! Refusals as errors, in the words of docs/USER-GUIDE.md.

use std::error::Error;
use std::fmt::{Display, Formatter, Result};

/// Why a call is refused. It is an error that can be printed.
///
/// ```
/// let refusal = danivomel::Refusal { number: 9, place: 3 };
/// assert_eq!(refusal.to_string(), "refused 9 at line 3: a unit twice in one group");
/// ```
#[repr(C)]
#[derive(Clone, Copy, Debug, PartialEq, Eq)]
pub struct Refusal {
    /// What is wrong, from 1 to 15.
    pub number: u64,
    /// Where it is wrong, counted from 1: a line of the job text, a unit of lists or of a table, or a group; else 0.
    pub place: u64,
}

impl Refusal {
    /// What is wrong, in words.
    ///
    /// ```
    /// let refusal = danivomel::level(&[5, 5], &[9, 9], &[0, 0], 7, &mut [0; 2]).unwrap_err();
    /// assert_eq!(refusal.reason(), "the group's total cannot be made: the lows add up to more, or the highs to less");
    /// ```
    pub fn reason(&self) -> &'static str {
        match self.number {
            1 => "a list, table, scratch or buffer of a wrong length",
            2 => "the text is longer than 65,536 bytes",
            3 => "the line is not in the form",
            4 => "a number is beyond its range",
            5 => "a unit line after a group line",
            6 => "too many: the 257th unit, the 65th group, or more than 4,096 memberships",
            7 => "the low is above the high, or a shut unit's range is not 0 to 0",
            8 => "a unit number that is 0 or above the number of units",
            9 => "a unit twice in one group",
            10 => "no unit line at all",
            11 => "the group's total cannot be made: the lows add up to more, or the highs to less",
            12 => "the total can be made, but every way breaks a limit",
            13 => "the last line has no line feed at its end",
            14 => "the brackets of the line do not match",
            15 => "the line does not begin with (unit, (group or (shut",
            _ => "no refusal has this number",
        }
    }

    /// What to do about it, in words.
    ///
    /// ```
    /// let refusal = danivomel::Refusal { number: 10, place: 0 };
    /// assert_eq!(refusal.advice(), "the job is empty: is it the right file?");
    /// ```
    pub fn advice(&self) -> &'static str {
        match self.number {
            1 => "give lists of one length from 1 to 256, or a table, scratch or buffer that is long enough",
            2 | 6 => "split the job",
            3 => "look at its spaces, numbers and inner words",
            4 => "shares go to 1,000,000, totals to 256,000,000, dev and pairs to 100,000,000,000, spread to 100,000,000,000,000,000",
            5 => "put all unit lines first, (shut) too",
            7 => "exchange the two numbers, or correct one",
            8 => "count the unit lines: was one taken out?",
            9 => "name it once",
            10 => "the job is empty: is it the right file?",
            11 => "change the total or a range; with several groups, settle without this one and add up what its units are left with",
            12 => "settle with any for its limits: the figures on its line are those below which nothing works",
            13 => "see that the line is whole, then press Enter after it",
            14 => "count them from the left, 1 more for each ( and 1 less for each )",
            15 => "look at its first word, and at what is ahead of it",
            _ => "look at the user guide",
        }
    }

    /// What the place counts, where it is not 0. A number beyond its range and a range that is not allowed are found in a
    /// text and in lists, so that their place is a line or a unit, as the call had it.
    fn counted(&self) -> &'static str {
        match self.number {
            4 | 7 => "line or unit",
            11 | 12 => "group",
            _ => "line",
        }
    }
}

impl Display for Refusal {
    fn fmt(&self, out: &mut Formatter<'_>) -> Result {
        match self.place {
            0 => write!(out, "refused {}: {}", self.number, self.reason()),
            place => write!(out, "refused {} at {} {place}: {}", self.number, self.counted(), self.reason()),
        }
    }
}

impl Error for Refusal {}

/// Why a job is not settled. It is an error that can be printed.
///
/// ```
/// use danivomel::{Refusal, Unsettled};
/// let unsettled = Unsettled { refusal: Refusal { number: 12, place: 1 }, passes: 2 };
/// let words = "refused 12 at group 1: the total can be made, but every way breaks a limit (in pass 2)";
/// assert_eq!(unsettled.to_string(), words);
/// ```
#[derive(Clone, Copy, Debug, PartialEq, Eq)]
pub struct Unsettled {
    /// The refusal.
    pub refusal: Refusal,
    /// The passes for 11 and 12, the refusing one counted; else 0.
    pub passes: u64,
}

impl Display for Unsettled {
    fn fmt(&self, out: &mut Formatter<'_>) -> Result {
        match self.passes {
            0 => write!(out, "{}", self.refusal),
            passes => write!(out, "{} (in pass {passes})", self.refusal),
        }
    }
}

impl Error for Unsettled {}
