//! The units of a sheet: each a row with a bar on a common scale of copies.

use super::labels::{Label, Labels, NUMBERS, SHARE};
use super::picture::{Anchor, Pen, Picture, Place, ACCENT, BLACK, GREY, PALE, WHITE};
use super::units::{Tick, Units, NUMBER, RANGE, SMALL};
use super::words::{grouped, range};
use danivomel::Range;

/// What draws ticks.
pub const TICK: Pen = (BLACK, 1.4);
/// What draws the edge that sets a tick off from its bar.
const EDGE: Pen = (WHITE, 2.6);
/// What draws the line from a tick to its label.
const LEADER: Pen = (GREY, 0.7);
/// The room between the parts of a row.
const GAP: f64 = 12.0;
/// The room between two columns.
const GUTTER: f64 = 28.0;
/// The height of the headings and the scale.
const HEAD: f64 = 34.0;
/// The heights of a row, the best first.
const PITCHES: [f64; 3] = [34.0, 28.0, 23.0];
/// The height of a further line of labels.
const LINE: f64 = 10.5;
/// How far a range given stands under the range left where rows stand in columns.
const BELOW: f64 = 9.5;
/// How far inside a label the line from its tick ends.
const INSET: f64 = 6.0;
/// The least width of what a bar shows: a range of one value is seen on every scale, also behind a tick.
const LEAST: f64 = 9.0;
/// The least width of the scale where rows stand in columns.
const NARROWEST: f64 = 150.0;

/// The rows of all units, in columns.
pub struct Bars<'a> {
    units: &'a Units,
    /// The labels of each unit.
    labels: Vec<Labels>,
    /// How many rows a column has.
    per_column: usize,
    /// The width of a column.
    column: f64,
    /// The width of the scale.
    width: f64,
    /// Where ranges left and given end in a column, and how far below the number of their unit.
    left: Place,
    given: Place,
    /// The height of a row with one line of labels.
    pitch: f64,
}

impl<'a> Bars<'a> {
    /// The rows of units over a width, in columns; nothing where the columns are too narrow. A single column has the
    /// ranges given beside the ranges left; in several they stand below them, so that the bars stay long.
    pub fn laid(units: &'a Units, width: f64, columns: usize) -> Option<Bars<'a>> {
        let column = (width + GUTTER) / columns as f64 - GUTTER;
        let [number, left, given] = units.widest;
        let (aside, ranges, below) = match columns {
            1 => (given + GAP, left + GAP + given, 0.0),
            _ => (0.0, left.max(given), BELOW),
        };
        let width = column - number - ranges - 3.0 * GAP;
        if columns > 1 && width < NARROWEST {
            return None;
        }
        let place = |share: u64| width * units.part(share);
        let labels = units.units.iter().map(|unit| Labels::laid(&unit.ticks, place, width)).collect();
        let per_column = (units.units.len() + columns - 1) / columns;
        let (left, given) = ((column - aside, -0.1 * below), (column, 0.9 * below));
        Some(Bars { units, labels, per_column, column, width, left, given, pitch: PITCHES[0] })
    }

    /// The same rows as high as a height allows; nothing where it allows none.
    pub fn within(self, height: f64) -> Option<Bars<'a>> {
        let pitch = *PITCHES.iter().find(|pitch| self.height_at(**pitch) <= height)?;
        Some(Bars { pitch, ..self })
    }

    /// The height of all rows.
    pub fn height(&self) -> f64 {
        self.height_at(self.pitch)
    }

    /// The height of all rows, given that of one: the height of the highest column.
    fn height_at(&self, pitch: f64) -> f64 {
        let column = |labels: &[Labels]| labels.iter().map(|labels| row_height(labels, pitch)).sum::<f64>();
        HEAD + self.labels.chunks(self.per_column).map(column).fold(0.0, f64::max)
    }

    /// Draws the rows from a place on.
    pub fn draw(&self, picture: &mut Picture, (x, y): Place) {
        for first in (0..self.labels.len()).step_by(self.per_column) {
            let column = (first / self.per_column) as f64;
            self.draw_column(picture, (x + (self.column + GUTTER) * column, y), first);
        }
    }

    /// Draws the column that begins with a unit: its headings and its scale, and its rows on top of them.
    fn draw_column(&self, picture: &mut Picture, (x, y): Place, first: usize) {
        let start = self.start();
        picture.text((x + start - GAP, y + 10.0), Anchor::End, SMALL, "unit");
        picture.text((x + start, y + 10.0), Anchor::Start, SMALL, "copies");
        picture.text((x + self.left.0, y + 10.0), Anchor::End, SMALL, "left");
        picture.text((x + self.given.0, y + 10.0 + self.given.1 - self.left.1), Anchor::End, SMALL, "given");
        let end = self.labels.len().min(first + self.per_column);
        let heights = self.labels[first..end].iter().map(|labels| row_height(labels, self.pitch));
        self.draw_scale(picture, (x + start, y + HEAD), heights.clone().sum());
        let mut top = y + HEAD;
        for (index, height) in (first..).zip(heights) {
            self.draw_row(picture, (x, top), index);
            top += height;
        }
    }

    /// Draws the scale ahead of rows of a height, and for each of its numbers a line through them.
    fn draw_scale(&self, picture: &mut Picture, (x, y): Place, height: f64) {
        for number in self.units.round_numbers(self.width) {
            let place = x + self.place(number);
            picture.text((place, y - 10.0), Anchor::Middle, SMALL, &grouped(number));
            picture.line((place, y - 7.0), (place, y + height - 4.0), (PALE, 1.0));
        }
    }

    /// Draws the row of a unit: its numbers, its bar, and its ticks with their labels.
    fn draw_row(&self, picture: &mut Picture, (x, y): Place, index: usize) {
        let unit = &self.units.units[index];
        let (bar, middle) = ((x + self.start(), y), y + self.bar_height() / 2.0);
        let number = middle + 3.8;
        picture.text((bar.0 - GAP, number), Anchor::End, NUMBER, &(index + 1).to_string());
        let left = (x + self.left.0, number + self.left.1);
        if unit.shut {
            picture.dashed((bar.0, middle), (bar.0 + self.width, middle), (GREY, 1.0), "2 4");
            picture.text(left, Anchor::End, RANGE, "shut");
        } else {
            self.draw_bar(picture, bar, unit.given, (WHITE, GREY));
            self.draw_bar(picture, bar, unit.left, (ACCENT, ACCENT));
            picture.text(left, Anchor::End, RANGE, &range(unit.left));
            let given = (x + self.given.0, number + self.given.1);
            picture.text(given, Anchor::End, RANGE.grey(), &range(unit.given));
        }
        unit.ticks.iter().for_each(|tick| self.draw_tick(picture, bar, tick.share, EDGE));
        match &self.labels[index] {
            Labels::Placed(lines) => self.draw_labels(picture, bar, index, lines),
            Labels::Numbers(lines) => self.draw_numbers(picture, bar, index, lines),
        }
    }

    /// Draws a range on the scale, in a colour with an edge of another.
    fn draw_bar(&self, picture: &mut Picture, (x, y): Place, range: Range, (colour, edge): (&str, &'static str)) {
        let (low, high) = (self.place(range.low), self.place(range.high));
        let width = (high - low).max(LEAST);
        picture.rect((x + (low + high - width) / 2.0, y), (width, self.bar_height()), colour, (edge, 1.0));
    }

    /// Draws a tick at a share, or its edge.
    fn draw_tick(&self, picture: &mut Picture, (x, y): Place, share: u64, pen: Pen) {
        let place = x + self.place(share);
        picture.line((place, y - 1.5), (place, y + self.bar_height() + 1.5), pen);
    }

    /// Draws the ticks of a unit and under each its label. A thin line leads to a label that had to move; where labels
    /// take several lines, they have the order of the ticks.
    fn draw_labels(&self, picture: &mut Picture, (x, y): Place, index: usize, lines: &[Vec<Label>]) {
        let numbered =
            lines.iter().enumerate().flat_map(|(line, labels)| labels.iter().map(move |label| (line, label)));
        for (tick, (line, label)) in self.units.units[index].ticks.iter().zip(numbered) {
            let (middle, half) = (x + label.middle, label.width / 2.0);
            let low = y + self.label_line(line);
            picture.begin(&named(index, tick));
            // The lines of the scale end where a label stands.
            picture.rect((middle - half, low - 7.0), (2.0 * half, 7.5), WHITE, (WHITE, 0.0));
            self.draw_tick(picture, (x, y), tick.share, TICK);
            if lines.len() == 1 {
                let place = x + self.place(tick.share);
                let inner = (half - INSET).max(0.0);
                let near = place.min(middle + inner).max(middle - inner);
                picture.line((place, y + self.bar_height() + 1.0), (near, low - 7.0), LEADER);
            }
            picture.texts((middle, low), Anchor::Middle, &[(NUMBERS, &*tick.groups), (SHARE, &*label.share)]);
            picture.end();
        }
    }

    /// Draws the ticks of a unit, and under all of them lines of group numbers.
    fn draw_numbers(&self, picture: &mut Picture, (x, y): Place, index: usize, lines: &[String]) {
        for tick in &self.units.units[index].ticks {
            picture.begin(&named(index, tick));
            self.draw_tick(picture, (x, y), tick.share, TICK);
            picture.end();
        }
        let places = (0..).map(|line| (x, y + self.label_line(line)));
        lines.iter().zip(places).for_each(|(line, place)| picture.text(place, Anchor::Start, NUMBERS, line));
    }

    /// Where in a column the scale begins.
    fn start(&self) -> f64 {
        self.units.widest[0] + GAP
    }

    /// Where a number of copies stands on the scale.
    fn place(&self, copies: u64) -> f64 {
        self.width * self.units.part(copies)
    }

    /// The height of a bar.
    fn bar_height(&self) -> f64 {
        0.42 * self.pitch - 2.4
    }

    /// How far under the top of a bar the letters of a line of its labels stand.
    fn label_line(&self, line: usize) -> f64 {
        0.56 * self.pitch + 4.9 + LINE * line as f64
    }
}

/// The height of a row, given that of one with one line of labels.
fn row_height(labels: &Labels, pitch: f64) -> f64 {
    pitch + LINE * (labels.lines() - 1) as f64
}

/// What a browser says of a tick that is pointed at.
fn named(index: usize, tick: &Tick) -> String {
    format!("unit {}, share of group {}: {}", index + 1, tick.groups, grouped(tick.share))
}
