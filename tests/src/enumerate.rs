//! Brute force on small groups and jobs: every share list, every plan, every table. It knows nothing of levels;
//! what it finds comes of the specification's definitions of shares, figures, plans and tables at rest alone.

use crate::calls::met;
use crate::independent::reader::{Group, Job};
use crate::independent::{GREATEST_SHARE, RUNNING};
use danivomel::{Deviation, Limits, Pairs, Spread};
use std::cmp::Reverse;

/// A range: low and high.
pub type Range = (u64, u64);

/// All lists with a share in each range that add up to the total, in rising order.
pub fn share_lists(ranges: &[Range], total: u64) -> Vec<Vec<u64>> {
    let mut lists = vec![];
    extend(ranges, total, &mut vec![], &mut lists);
    lists
}

/// Adds every list that begins with the given shares and whose others, from the ranges left, add up to what is left.
fn extend(ranges: &[Range], left: u64, shares: &mut Vec<u64>, lists: &mut Vec<Vec<u64>>) {
    if ranges.is_empty() && left == 0 {
        lists.push(shares.clone());
    }
    if ranges.is_empty() {
        return;
    }
    let (low, high) = ranges[0];
    for share in low..=high.min(left) {
        shares.push(share);
        extend(&ranges[1..], left - share, shares, lists);
        shares.pop();
    }
}

/// What the running members have of a list with an item for each member: figures and totals above t are theirs alone.
pub fn running<T: Copy>(list: &[T], marks: &[u64]) -> Vec<T> {
    list.iter().zip(marks).filter(|(_, &mark)| mark == RUNNING).map(|(&item, _)| item).collect()
}

/// The deviation of running members' shares: the sum of |n × share − total|.
pub fn deviation(shares: &[u64], total: u64) -> Deviation {
    let n = shares.len() as i128;
    Deviation(shares.iter().map(|&share| (n * share as i128 - total as i128).unsigned_abs() as u64).sum())
}

/// The spread of running members' shares: n × (sum of squared shares) − total × total.
pub fn spread(shares: &[u64], total: u64) -> Spread {
    let n = shares.len() as i128;
    let squares: i128 = shares.iter().map(|&share| share as i128 * share as i128).sum();
    Spread(u64::try_from(n * squares - total as i128 * total as i128).expect("a spread is not negative"))
}

/// The pair differences of running members' shares: larger less smaller share, over all pairs, each pair once.
pub fn pairs(shares: &[u64]) -> Pairs {
    let with_those_before = |second: usize| -> u64 {
        shares[..second].iter().map(|first| first.max(&shares[second]) - first.min(&shares[second])).sum()
    };
    Pairs((0..shares.len()).map(with_those_before).sum())
}

/// The total above t of running members' shares: the sum of share − t over those above t.
pub fn above(shares: &[u64], t: u64) -> u64 {
    shares.iter().filter(|&&share| share > t).map(|&share| share - t).sum()
}

/// All plans: the share lists whose running members are within the three limits.
pub fn plans(ranges: &[Range], marks: &[u64], total: u64, limits: Limits) -> Vec<Vec<u64>> {
    let mut lists = share_lists(ranges, total);
    lists.retain(|list| {
        let shares = running(list, marks);
        met(limits, deviation(&shares, total), spread(&shares, total), pairs(&shares))
    });
    lists
}

/// The levelled shares, found without a level: of the lists with the least spread, the one that gives most to the
/// members with the highest highs, and among equal highs to the earlier.
pub fn levelled<'a>(lists: &'a [Vec<u64>], ranges: &[Range], marks: &[u64], total: u64) -> Option<&'a Vec<u64>> {
    let spread_of = |list: &[u64]| spread(&running(list, marks), total);
    let least = lists.iter().map(|list| spread_of(list)).min()?;
    let mut turns: Vec<usize> = (0..ranges.len()).collect();
    turns.sort_by_key(|&member| (Reverse(ranges[member].1), member));
    let in_turn = |list: &&Vec<u64>| turns.iter().map(|&member| list[member]).collect::<Vec<u64>>();
    lists.iter().filter(|list| spread_of(list) == least).max_by_key(in_turn)
}

/// T(v): the sum of v moved into each range.
pub fn total_at(ranges: &[Range], v: u64) -> u64 {
    ranges.iter().map(|&(low, high)| v.min(high).max(low)).sum()
}

/// The level, by trying every value from the greatest high down: above it T does not grow.
pub fn level(ranges: &[Range], total: u64) -> Option<u64> {
    let top = ranges.iter().map(|range| range.1).max()?;
    if total_at(ranges, top) <= total {
        return Some(GREATEST_SHARE);
    }
    (0..top).rev().find(|&v| total_at(ranges, v) <= total)
}

/// The specification's bound below the deviation, from the ranges of running members.
pub fn deviation_bound(ranges: &[Range], total: u64) -> u64 {
    let n = ranges.len() as u64;
    let below: u64 = ranges.iter().map(|range| total.saturating_sub(n * range.1)).sum();
    let beyond: u64 = ranges.iter().map(|range| (n * range.0).saturating_sub(total)).sum();
    2 * below.max(beyond)
}

/// The values that plans give a member, rising.
pub fn values_taken(plans: &[Vec<u64>], member: usize) -> Vec<u64> {
    let mut values: Vec<u64> = plans.iter().map(|plan| plan[member]).collect();
    values.sort_unstable();
    values.dedup();
    values
}

/// What the members of a group have of a list with an item for each unit.
pub fn of_members<T: Copy>(group: &Group, list: &[T]) -> Vec<T> {
    group.members.iter().map(|&unit| list[unit]).collect()
}

/// What one group's turn leaves of a table, by its plans; or 11 or 12.
pub fn revise(group: &Group, marks: &[u64], table: &mut [Range]) -> Result<(), u64> {
    let ranges = of_members(group, table);
    if share_lists(&ranges, group.total).is_empty() {
        return Err(11);
    }
    let plans = plans(&ranges, &of_members(group, marks), group.total, group.limits);
    if plans.is_empty() {
        return Err(12);
    }
    for (member, &unit) in group.members.iter().enumerate() {
        let values = values_taken(&plans, member);
        table[unit] = (values[0], values[values.len() - 1]);
    }
    Ok(())
}

/// Settles a job's table by enumerated turns: the passes, or the number, the group's place and the passes.
pub fn settle(job: &Job, table: &mut Vec<Range>) -> Result<u64, (u64, u64, u64)> {
    let opening = table.clone();
    let mut passes = 0;
    loop {
        passes += 1;
        let before = table.clone();
        for (index, group) in job.groups.iter().enumerate() {
            if let Err(number) = revise(group, &job.marks, table) {
                *table = opening;
                return Err((number, index as u64 + 1, passes));
            }
        }
        if *table == before {
            return Ok(passes);
        }
    }
}

/// Whether a table is at rest: each value of each member is taken by a plan of the group inside the table.
pub fn at_rest(groups: &[Group], opening_plans: &[Vec<Vec<u64>>], table: &[Range]) -> bool {
    groups.iter().zip(opening_plans).all(|(group, plans)| {
        let inside: Vec<Vec<u64>> = plans.iter().filter(|plan| draws(group, plan, table)).cloned().collect();
        (0..group.members.len()).all(|member| {
            let (low, high) = table[group.members[member]];
            values_taken(&inside, member) == (low..=high).collect::<Vec<u64>>()
        })
    })
}

/// Whether a plan is drawn from a table.
fn draws(group: &Group, plan: &[u64], table: &[Range]) -> bool {
    plan.iter().zip(&group.members).all(|(&share, &unit)| table[unit].0 <= share && share <= table[unit].1)
}

/// The plans of each group of a job inside a table.
pub fn plans_of(job: &Job, table: &[Range]) -> Vec<Vec<Vec<u64>>> {
    let of_group =
        |group: &Group| plans(&of_members(group, table), &of_members(group, &job.marks), group.total, group.limits);
    job.groups.iter().map(of_group).collect()
}

/// Every table inside another one.
pub fn tables_inside(opening: &[Range]) -> Vec<Vec<Range>> {
    let mut tables = vec![vec![]];
    for &(low, high) in opening {
        let mut longer = vec![];
        for table in &tables {
            for first in low..=high {
                for last in first..=high {
                    let mut next: Vec<Range> = table.clone();
                    next.push((first, last));
                    longer.push(next);
                }
            }
        }
        tables = longer;
    }
    tables
}

/// All tables at rest inside the opening one.
pub fn tables_at_rest(job: &Job, opening: &[Range]) -> Vec<Vec<Range>> {
    let opening_plans = plans_of(job, opening);
    let mut tables = tables_inside(opening);
    tables.retain(|table| at_rest(&job.groups, &opening_plans, table));
    tables
}

/// Whether a table lies inside another one.
pub fn inside(table: &[Range], other: &[Range]) -> bool {
    table.iter().zip(other).all(|(range, outer)| outer.0 <= range.0 && range.1 <= outer.1)
}

/// Whether one choice of shares from the table suits all groups at once.
pub fn suits_all(job: &Job, table: &[Range]) -> bool {
    let single = |values: &Vec<Range>| values.iter().all(|range| range.0 == range.1);
    tables_inside(table)
        .iter()
        .filter(|choice| single(choice))
        .any(|choice| plans_of(job, choice).iter().all(|plans| !plans.is_empty()))
}
