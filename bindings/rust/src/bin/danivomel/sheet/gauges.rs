//! The groups of a sheet: each a row with its total and mean, and its three figures with gauges of their limits.

use super::picture::{Anchor, Letters, Picture, Place, ACCENT, GREY, PALE, WHITE};
use super::words::{decimal, grouped, lines, numbers, units};
use crate::job::Group;
use crate::plan::{Plan, Shared};
use danivomel::Limit;

/// The letters of group numbers.
const NUMBER: Letters = Letters::of_size(12.0).bold();
/// The letters of numbers.
const PLAIN: Letters = Letters::of_size(10.0);
/// The letters of headings and of what only explains a number.
const SMALL: Letters = Letters::of_size(9.0).grey();
/// The room between the parts of a row.
const GAP: f64 = 12.0;
/// The room between two columns.
const GUTTER: f64 = 24.0;
/// The height of the headings.
const HEAD: f64 = 20.0;
/// The height of a row's first two lines, with the room around them.
const TWO_LINES: f64 = 36.0;
/// The height of each further line.
const LINE: f64 = 12.0;
/// The most lines that a list of units takes.
const MOST_LINES: usize = 3;
/// The width and the height of a gauge.
const GAUGE: Place = (44.0, 8.0);
/// How far beside the start of a gauge its figure stands.
const BESIDE: f64 = GAUGE.0 + 7.0;
/// The headings of the figures.
const FIGURES: [&str; 3] = ["deviation from the mean", "spread", "pair differences"];

/// A figure of a group.
struct Figure {
    /// How much of its limit it takes, from 0 to 1; nothing where there is no limit.
    used: Option<f64>,
    /// The figure and its limit.
    of_limit: String,
    /// What it is in copies.
    in_copies: String,
}

/// A group.
struct Row {
    total: String,
    mean: String,
    /// How many units it names, and which.
    units: String,
    /// Its deviation, spread and pair differences.
    figures: [Figure; 3],
}

/// The groups of a plan.
pub struct Groups(Vec<Row>);

/// The rows of all groups, in columns.
pub struct Gauges<'a> {
    rows: &'a [Row],
    /// The units of each group in lines.
    units: Vec<Vec<String>>,
    /// How many rows a column has.
    per_column: usize,
    /// The width of a column.
    column: f64,
    /// Where in a column totals and units begin, and then means.
    totals: f64,
    means: f64,
    /// Where each figure begins, and how much room it has.
    figures: [(f64, f64); 3],
}

impl Figure {
    /// A figure with its limit, and what it is in copies.
    fn of(figure: u64, limit: Limit, in_copies: String) -> Figure {
        let shown = grouped(figure);
        match limit {
            Limit::Any => Figure { used: None, of_limit: format!("{shown}, no limit"), in_copies },
            Limit::AtMost(limit) => {
                // Of a limit of 0 nothing is left: its gauge is full.
                let used = if limit == 0 { 1.0 } else { figure as f64 / limit as f64 };
                Figure {
                    used: Some(used.min(1.0)),
                    of_limit: format!("{shown} of {} allowed", grouped(limit)),
                    in_copies,
                }
            }
        }
    }

    /// Its width.
    fn width(&self) -> f64 {
        BESIDE + PLAIN.width(&self.of_limit).max(SMALL.width(&self.in_copies))
    }

    /// Draws it over a width.
    fn draw(&self, picture: &mut Picture, (x, y): Place, width: f64) {
        if let Some(used) = self.used {
            picture.rect((x, y + 5.0), GAUGE, WHITE, (GREY, 0.8));
            picture.rect((x, y + 5.0), (used * GAUGE.0, GAUGE.1), ACCENT, (ACCENT, 0.0));
        }
        let room = width - BESIDE;
        picture.text((x + BESIDE, y + 13.0), Anchor::Start, PLAIN.within(room, &self.of_limit), &self.of_limit);
        picture.text((x + BESIDE, y + 26.0), Anchor::Start, SMALL.within(room, &self.in_copies), &self.in_copies);
    }
}

impl Row {
    /// The row of a group.
    fn of(group: &Group, shared: &Shared) -> Row {
        let mut named = group.units.clone();
        named.sort_unstable();
        let copies = |number: f64| match &*decimal(number) {
            "1" => "1 copy".into(),
            shown => format!("{shown} copies"),
        };
        let average = copies(shared.average_distance()) + " on average";
        let standard = format!("standard deviation {}", copies(shared.standard_distance()));
        let between = copies(shared.average_difference()) + " on average";
        Row {
            total: grouped(group.total),
            mean: decimal(shared.mean()),
            units: format!("{}: {}", units(named.len(), named.len() - shared.running), numbers(&named)),
            figures: [
                Figure::of(shared.levelled.deviation.0, group.limits.deviation, average),
                Figure::of(shared.levelled.spread.0, group.limits.spread, standard),
                Figure::of(shared.levelled.pairs.0, group.limits.pairs, between),
            ],
        }
    }

    /// Its units in lines of a width, the last cut short where they are too many.
    fn unit_lines(&self, width: f64) -> Vec<String> {
        let mut units = lines(&self.units, SMALL, width);
        if units.len() > MOST_LINES {
            units.truncate(MOST_LINES);
            units[MOST_LINES - 1] += " …";
        }
        units
    }
}

impl Groups {
    /// The groups of a plan.
    pub fn of(plan: &Plan) -> Groups {
        Groups(plan.job.groups.iter().zip(&plan.shared).map(|(group, shared)| Row::of(group, shared)).collect())
    }

    /// How many there are.
    pub fn count(&self) -> usize {
        self.0.len()
    }

    /// The width of the widest part of a kind, or of a short heading, with the room after it.
    fn widest(&self, part: impl Fn(&Row) -> f64) -> f64 {
        self.0.iter().map(part).fold(SMALL.width("mean"), f64::max) + GAP
    }
}

impl<'a> Gauges<'a> {
    /// The rows of groups over a width, in as many columns as have room.
    pub fn laid(groups: &'a Groups, width: f64) -> Gauges<'a> {
        let totals = SMALL.width("group") + GAP;
        let means = totals + groups.widest(|row| PLAIN.width(&row.total));
        let figures = means + groups.widest(|row| PLAIN.width(&row.mean));
        let widths = [0, 1, 2].map(|figure| groups.widest(|row| row.figures[figure].width()));
        let whole = figures + widths.iter().sum::<f64>() - GAP;
        let columns = ((width + GUTTER) / (whole + GUTTER)).clamp(1.0, groups.count().max(1) as f64) as usize;
        let column = (width + GUTTER) / columns as f64 - GUTTER;
        // What a column has beyond the least goes to the units as far as they need it, and then ahead of each figure,
        // a third each. What it lacks the figures give likewise, and are written smaller.
        let units = totals + groups.widest(|row| SMALL.width(&row.units)) - figures;
        let units = units.min(column - whole).max(0.0);
        let spare = (column - whole - units) / 3.0;
        let first = figures + units + spare.max(0.0);
        let figures = placed(first, widths, spare);
        let rows = &groups.0;
        let units = rows.iter().map(|row| row.unit_lines(first - GAP - totals)).collect();
        let per_column = ((rows.len() + columns - 1) / columns).max(1);
        Gauges { rows, units, per_column, column, totals, means, figures }
    }

    /// The height of all rows: that of the highest column.
    pub fn height(&self) -> f64 {
        let column = |rows: &[Vec<String>]| HEAD + rows.iter().map(|units| row_height(units)).sum::<f64>();
        self.units.chunks(self.per_column).map(column).fold(0.0, f64::max)
    }

    /// Draws the rows from a place on.
    pub fn draw(&self, picture: &mut Picture, (x, y): Place) {
        for first in (0..self.rows.len()).step_by(self.per_column) {
            let column = (first / self.per_column) as f64;
            self.draw_column(picture, (x + (self.column + GUTTER) * column, y), first);
        }
    }

    /// Draws the column that begins with a group: its headings and its rows.
    fn draw_column(&self, picture: &mut Picture, (x, y): Place, first: usize) {
        picture.text((x, y + 10.0), Anchor::Start, SMALL, "group");
        picture.text((x + self.totals, y + 10.0), Anchor::Start, SMALL, "total");
        picture.text((x + self.means, y + 10.0), Anchor::Start, SMALL, "mean");
        for ((start, _), heading) in self.figures.iter().zip(FIGURES) {
            picture.text((x + start + BESIDE, y + 10.0), Anchor::Start, SMALL, heading);
        }
        let mut top = y + HEAD;
        for index in first..self.rows.len().min(first + self.per_column) {
            self.draw_row(picture, (x, top), index);
            top += row_height(&self.units[index]);
        }
    }

    /// Draws the row of a group under a thin line.
    fn draw_row(&self, picture: &mut Picture, (x, y): Place, index: usize) {
        let row = &self.rows[index];
        picture.line((x, y - 3.0), (x + self.column, y - 3.0), (PALE, 1.0));
        picture.text((x, y + 13.0), Anchor::Start, NUMBER, &(index + 1).to_string());
        picture.text((x + self.totals, y + 13.0), Anchor::Start, PLAIN, &row.total);
        picture.text((x + self.means, y + 13.0), Anchor::Start, PLAIN, &row.mean);
        for (figure, (start, room)) in row.figures.iter().zip(self.figures) {
            figure.draw(picture, (x + start, y), room);
        }
        let places = (0..).map(|line| (x + self.totals, y + 26.0 + LINE * f64::from(line)));
        places.zip(&self.units[index]).for_each(|(place, line)| picture.text(place, Anchor::Start, SMALL, line));
    }
}

/// Where figures of some widths stand from a place on, each with its room: its width and what there is to spare, or lacking.
fn placed(first: f64, widths: [f64; 3], spare: f64) -> [(f64, f64); 3] {
    let mut start = first;
    widths.map(|width| {
        let figure = (start, width + spare - GAP);
        start += width + spare;
        figure
    })
}

/// The height of a row, given its units in lines.
fn row_height(units: &[String]) -> f64 {
    TWO_LINES + LINE * (units.len() - 1) as f64
}
