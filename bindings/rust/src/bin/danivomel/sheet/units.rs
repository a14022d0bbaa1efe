//! What the sheet shows of the units, wherever they stand on it.

use super::picture::Letters;
use super::words::{grouped, numbers, range};
use crate::plan::Plan;
use danivomel::{Range, SHUT};
use std::collections::BTreeMap;

/// The letters of unit numbers.
pub const NUMBER: Letters = Letters::of_size(11.0).bold();
/// The letters of ranges.
pub const RANGE: Letters = Letters::of_size(10.0);
/// The letters of headings and of the scale.
pub const SMALL: Letters = Letters::of_size(9.0).grey();
/// The least room between two numbers on the scale.
const APART: f64 = 24.0;

/// A tick of a unit: a share that groups give it.
pub struct Tick {
    /// The share.
    pub share: u64,
    /// The numbers of all groups that give it.
    pub groups: String,
}

/// A unit.
pub struct Unit {
    /// Whether it is shut.
    pub shut: bool,
    /// The range given.
    pub given: Range,
    /// The range left.
    pub left: Range,
    /// Its ticks, with rising shares.
    pub ticks: Vec<Tick>,
}

/// The units of a plan.
pub struct Units {
    /// The units, in the order of their numbers.
    pub units: Vec<Unit>,
    /// The ends of the scale of copies, which are never equal.
    scale: Range,
    /// The widths of the widest number of a unit, range left and range given.
    pub widest: [f64; 3],
}

impl Units {
    /// The units of a plan. Their scale begins at 0, or at the least low where all bars would stand in its second half.
    pub fn of(plan: &Plan) -> Units {
        let (given, left, marks) = (&plan.job.opening, &plan.left, &plan.job.marks);
        let unit = |(index, ticks)| Unit { shut: marks[index] == SHUT, given: given[index], left: left[index], ticks };
        let units: Vec<Unit> = (0..).zip(ticks(plan)).map(unit).collect();
        let running = || units.iter().filter(|unit| !unit.shut).map(|unit| unit.given);
        let least = running().map(|range| range.low).min().unwrap_or(0);
        let most = running().map(|range| range.high).max().unwrap_or(0);
        let low = if 2 * least < most { 0 } else { least };
        let scale = Range { low, high: most.max(low + 1) };
        let widest = |ranges: &[Range]| ranges.iter().map(|entry| RANGE.width(&range(*entry))).fold(0.0, f64::max);
        let number = NUMBER.width(&units.len().to_string()).max(SMALL.width("unit"));
        let left = widest(&plan.left).max(RANGE.width("shut"));
        let widest = [number, left, widest(&plan.job.opening).max(SMALL.width("given"))];
        Units { units, scale, widest }
    }

    /// The part of the scale that is ahead of a number of copies; none is ahead of a shut unit's 0.
    pub fn part(&self, copies: u64) -> f64 {
        copies.saturating_sub(self.scale.low) as f64 / (self.scale.high - self.scale.low) as f64
    }

    /// The round numbers on the scale, as many as have room on a width.
    pub fn round_numbers(&self, width: f64) -> Vec<u64> {
        let Range { low, high } = self.scale;
        let most = (width / (SMALL.width(&grouped(high)) + APART)).clamp(1.0, 10.0) as u64;
        let mut steps = (0..7).flat_map(|power| [1, 2, 5].map(|times| times * 10u64.pow(power)));
        let step = steps.find(|step| (high - low) / step <= most).unwrap_or(high);
        ((low + step - 1) / step..=high / step).map(|times| times * step).collect()
    }
}

/// The ticks of each unit, with rising shares.
fn ticks(plan: &Plan) -> Vec<Vec<Tick>> {
    let mut shares: Vec<BTreeMap<u64, Vec<usize>>> = vec![BTreeMap::new(); plan.left.len()];
    let groups = plan.job.groups.iter().zip(&plan.shared).zip(1..);
    let members = groups.flat_map(|((group, shared), number)| {
        group.units.iter().zip(&shared.shares).map(move |(unit, share)| (number, unit - 1, *share))
    });
    for (group, index, share) in members {
        shares[index].entry(share).or_default().push(group);
    }
    let tick = |(share, groups): (u64, Vec<usize>)| Tick { share, groups: numbers(&groups) };
    shares.into_iter().map(|shares| shares.into_iter().map(tick).collect()).collect()
}
