//! The ends of members' ranges, as the proved planner finds them: an end that is the levelled share, or that another member's
//! trials answer for, needs no trial. Any other is moved to the nearest value that the others can make up for; then Newton's
//! steps over the values, and bisection after a fixed number of them.

use super::probe::{Table, Trial};

/// How many of Newton's steps an end gets before bisection takes over, which bounds the search.
const NEWTON_STEPS: u32 = 8;

/// One member: its range at the start, and its levelled share.
#[derive(Clone, Copy)]
pub struct Member {
    pub low: u64,
    pub high: u64,
    pub share: u64,
}

/// What is known of every member with low ≤ under and over ≤ high: `inner` is taken, and where `edge` says so the value next to
/// it, outward, is not.
#[derive(Clone, Copy)]
pub struct Shared {
    under: u64,
    over: u64,
    inner: u64,
    edge: bool,
}

impl Shared {
    /// Nothing is known of any member.
    pub const NOTHING: Shared = Shared { under: 0, over: u64::MAX, inner: 0, edge: false };

    /// What was found for a member, if it is at the level in all rows from one to another; else what was known.
    fn or_found(self, table: &Table, member: Member, rows: (usize, usize), inner: u64, edge: bool) -> Shared {
        let Some(next) = table.rows.get(rows.0.max(rows.1) + 1) else { return self };
        let (under, over) = (table.rows[rows.0.min(rows.1)].level, next.level);
        if member.low <= under && over <= member.high {
            return Shared { under, over, inner, edge };
        }
        self
    }
}

/// The value nearest to one end of the member's range that some plan takes. The levelled share, which lies near a row, is one.
#[inline(always)]
pub fn end(table: &Table, member: Member, end: u64, near: usize, shared: &mut Shared) -> u64 {
    if end == member.share {
        return end;
    }
    if member.low <= shared.under && shared.over <= member.high {
        let within = if end < member.share { shared.inner <= end } else { end <= shared.inner };
        if within {
            return end;
        }
        if shared.edge {
            return shared.inner;
        }
    }
    search(table, member, end, near, shared)
}

/// The same by trials. Not inlined, so that the loop over the members stays small.
#[inline(never)]
fn search(table: &Table, member: Member, end: u64, near: usize, shared: &mut Shared) -> u64 {
    let Member { low, high, share } = member;
    let (mut outer, mut inner) = (into_reach(table, member, end), share);
    let mut trial = Trial { low, high, value: outer };
    let mut row = table.row_of(trial, near);
    let mut found = table.look(trial, row);
    if table.allows(found) {
        *shared = shared.or_found(table, member, (row, row), outer, false);
        return outer;
    }
    let (mut outer_row, mut inner_row) = (row, None);
    let (mut taken, mut tries) = (false, 0);
    while outer.abs_diff(inner) > 1 {
        let far = outer.abs_diff(inner);
        let inward = match taken {
            _ if tries == NEWTON_STEPS => far / 2,
            true => far - 1,
            false => table.step(trial, row, found).clamp(1, far - 1),
        };
        tries = (tries + 1).min(NEWTON_STEPS);
        trial.value = if outer < inner { outer + inward } else { outer - inward };
        row = table.row_of(trial, row);
        found = table.look(trial, row);
        taken = table.allows(found);
        if taken {
            (inner, inner_row) = (trial.value, Some(row));
        } else {
            (outer, outer_row) = (trial.value, row);
        }
    }
    // Where only the share is left, no trial has told its row.
    let inner_row = inner_row.unwrap_or_else(|| table.row_of(Trial { low, high, value: inner }, outer_row));
    *shared = shared.or_found(table, member, (inner_row, outer_row), inner, true);
    inner
}

/// An end moved to where the other members can make up for it.
fn into_reach(table: &Table, member: Member, end: u64) -> u64 {
    let terms = &table.terms;
    let least = terms.total.saturating_sub(terms.highs - member.high);
    let greatest = terms.total - (terms.lows - member.low);
    end.max(least).min(greatest)
}
