//! The labels of a unit's ticks: what they say, and where they stand.

use super::picture::Letters;
use super::units::Tick;
use super::words::{grouped, lines};

/// The letters of group numbers.
pub const NUMBERS: Letters = Letters::of_size(9.0).bold();
/// The letters of shares.
pub const SHARE: Letters = Letters::of_size(9.0);
/// The room between two labels.
const GAP: f64 = 6.0;
/// The most lines that labels with shares take.
const MOST_LINES: usize = 3;

/// The label of a tick.
pub struct Label {
    /// Where its middle stands.
    pub middle: f64,
    /// Its width.
    pub width: f64,
    /// A colon and the share; nothing where there is only room for the groups' numbers.
    pub share: String,
}

/// The labels of a unit.
pub enum Labels {
    /// One for each tick, in one line or more, as near to their ticks as they can be.
    Placed(Vec<Vec<Label>>),
    /// Where they are too many for that, lines of group numbers in the order of the ticks.
    Numbers(Vec<String>),
}

impl Labels {
    /// The labels of rising ticks whose places are known, over a width: with shares where these take no more than some
    /// lines, else without.
    pub fn laid(ticks: &[Tick], place: impl Fn(u64) -> f64, width: f64) -> Labels {
        let label = |tick: &Tick, share: String| {
            let width = NUMBERS.width(&tick.groups) + SHARE.width(&share);
            Label { middle: place(tick.share), width, share }
        };
        let long = ticks.iter().map(|tick| label(tick, format!(": {}", grouped(tick.share))));
        let short = ticks.iter().map(|tick| label(tick, String::new()));
        match broken(long, width, MOST_LINES).or_else(|| broken(short, width, 1)) {
            Some(lines) => Labels::Placed(lines.into_iter().map(|line| apart(line, width)).collect()),
            None => {
                let groups: Vec<&str> = ticks.iter().map(|tick| &*tick.groups).collect();
                Labels::Numbers(lines(&groups.join("\u{a0}· "), NUMBERS, width))
            }
        }
    }

    /// How many lines they take.
    pub fn lines(&self) -> usize {
        match self {
            Labels::Placed(lines) => lines.len(),
            Labels::Numbers(lines) => lines.len(),
        }
    }
}

/// Labels in lines of a width; nothing where one is wider, or where they take more than some lines.
fn broken(labels: impl Iterator<Item = Label>, width: f64, most: usize) -> Option<Vec<Vec<Label>>> {
    let mut lines: Vec<Vec<Label>> = vec![Vec::new()];
    let mut end = 0.0;
    for label in labels {
        end += label.width;
        if end > width {
            end = label.width;
            lines.push(Vec::new());
        }
        end += GAP;
        lines.last_mut()?.push(label);
    }
    let fits = lines.len() <= most && lines.iter().flatten().all(|label| label.width <= width);
    fits.then_some(lines)
}

/// Labels of a line, moved so that none overlaps another, none leaves the width, and they move no more than they must.
///
/// Take from each label's left end the widths of all labels ahead of it. Labels are apart where these numbers do not
/// fall, so labels whose numbers fall all take their mean, which is the least change by the sum of squares.
fn apart(mut labels: Vec<Label>, width: f64) -> Vec<Label> {
    let mut runs: Vec<(f64, usize)> = Vec::new();
    let mut ahead = 0.0;
    for label in &labels {
        runs = joined(runs, (label.middle - label.width / 2.0 - ahead, 1));
        ahead += label.width + GAP;
    }
    let last = width + GAP - ahead;
    let starts = runs.into_iter().flat_map(|(start, count)| vec![start.min(last).max(0.0); count]);
    labels.iter_mut().zip(starts).fold(0.0, |ahead, (label, start)| {
        label.middle = start + ahead + label.width / 2.0;
        ahead + label.width + GAP
    });
    labels
}

/// Rising runs of equal numbers, each a number and a count, with one more at the end: it takes in those above it.
fn joined(mut runs: Vec<(f64, usize)>, mut last: (f64, usize)) -> Vec<(f64, usize)> {
    while let Some((number, count)) = runs.pop() {
        if number <= last.0 {
            runs.push((number, count));
            break;
        }
        let both = count + last.1;
        last = ((number * count as f64 + last.0 * last.1 as f64) / both as f64, both);
    }
    runs.push(last);
    runs
}
