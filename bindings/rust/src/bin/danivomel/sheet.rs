//! The plan sheet: a settled job as an SVG picture for one page of paper.

mod bars;
mod gauges;
mod labels;
mod picture;
mod units;
mod words;

use crate::plan::Plan;
use bars::{Bars, TICK};
use danivomel::SHUT;
use gauges::{Gauges, Groups};
use picture::{Anchor, Letters, Picture, Place, ACCENT, GREY, WHITE};
use units::Units;
use words::{counted, units};

/// The width and the height of A4 in millimetres.
const PAPER: Place = (210.0, 297.0);
/// The width and the height of A4 in the sheet's measure where nothing has to be small; a millimetre has four.
const PAGE: Place = (840.0, 1188.0);
/// The margin of the page.
const MARGIN: f64 = 32.0;
/// The height of the heading.
const HEADING: f64 = 62.0;
/// The room between the units and the groups.
const BETWEEN: f64 = 14.0;
/// The height of the line at the foot.
const FOOT: f64 = 14.0;
/// The most columns of units.
const MOST_COLUMNS: usize = 6;
/// The letters of the name.
const NAME: Letters = Letters::of_size(20.0).bold();
/// The letters of the counts.
const COUNTS: Letters = Letters::of_size(11.0);
/// The letters of what explains the picture.
const SMALL: Letters = Letters::of_size(9.0).grey();

/// What stands on a page, and where.
struct Page<'a> {
    /// How many times wider and higher the page is, in the sheet's measure, than one on which nothing has to be small.
    zoom: f64,
    bars: Bars<'a>,
    gauges: Gauges<'a>,
    /// What the foot says: nothing where there are no two groups whose shares could differ.
    foot: &'static str,
}

/// The plan sheet of a settled job as an SVG picture; the name is what the job is called on it.
pub fn sheet(plan: &Plan, name: &str) -> String {
    let (units, groups, counts) = (Units::of(plan), Groups::of(plan), counts(plan));
    let page = Page::of(&units, &groups);
    let mut picture = Picture::default();
    page.draw_heading(&mut picture, name, &counts);
    page.draw(&mut picture);
    let description = format!(
        "{counts}. Each unit is a bar on a scale of copies: outlined the range given, full the range left, and for \
         each of its groups a tick at the group's share. Below are each group's total, mean, deviation, spread and \
         pair differences, with its limits."
    );
    let paper = (PAPER.0, PAPER.1 * page.height() / (page.zoom * PAGE.1));
    picture.drawn(paper, (page.zoom * PAGE.0, page.height()), &format!("Plan sheet of {name}"), &description)
}

impl<'a> Page<'a> {
    /// The page with the largest letters that fits into A4. Where units do not fit one under the other, their rows get
    /// lower first, and then stand in columns. Where that is not enough, the page grows in the sheet's measure, so that
    /// all but the heading is smaller on paper; in the end there is room for everything. So every job is one picture on
    /// one page, and one of 256 units in 64 groups asks for larger paper than A4, or for a screen.
    fn of(units: &'a Units, groups: &'a Groups) -> Page<'a> {
        let mut zoom = 1.0;
        loop {
            if let Some(page) = Page::zoomed(units, groups, zoom) {
                return page;
            }
            zoom += 0.05;
        }
    }

    /// The page with the fewest columns and then the highest rows that fits into A4 at a zoom.
    fn zoomed(units: &'a Units, groups: &'a Groups, zoom: f64) -> Option<Page<'a>> {
        let foot = if groups.count() > 1 { "Each group's shares are the most even for that group alone." } else { "" };
        let width = zoom * (PAGE.0 - 2.0 * MARGIN);
        let gauges = Gauges::laid(groups, width);
        let room = zoom * (PAGE.1 - 2.0 * MARGIN - HEADING - BETWEEN - FOOT) - gauges.height();
        let bars = (1..=MOST_COLUMNS).find_map(|columns| Bars::laid(units, width, columns)?.within(room))?;
        Some(Page { zoom, bars, gauges, foot })
    }

    /// The height of all that stands on it.
    fn height(&self) -> f64 {
        let foot = if self.foot.is_empty() { 0.0 } else { FOOT };
        self.zoom * (2.0 * MARGIN + HEADING + BETWEEN + foot) + self.bars.height() + self.gauges.height()
    }

    /// Draws the heading: the name, the counts, and what bars and ticks mean.
    fn draw_heading(&self, picture: &mut Picture, name: &str, counts: &str) {
        let at = |x: f64, y: f64| (self.zoom * (MARGIN + x), self.zoom * (MARGIN + y));
        let bar = (24.0 * self.zoom, 8.0 * self.zoom);
        let small = self.large(SMALL);
        picture.text(at(0.0, 16.0), Anchor::Start, self.large(NAME), &shortened(name));
        picture.text(at(0.0, 34.0), Anchor::Start, self.large(COUNTS), counts);
        picture.rect(at(0.0, 44.0), bar, WHITE, (GREY, self.zoom));
        picture.text(at(30.0, 51.5), Anchor::Start, small, "given");
        picture.rect(at(70.0, 44.0), bar, ACCENT, (ACCENT, self.zoom));
        picture.text(at(100.0, 51.5), Anchor::Start, small, "left");
        picture.line(at(132.0, 43.0), at(132.0, 53.0), (TICK.0, TICK.1 * self.zoom));
        picture.text(at(138.0, 51.5), Anchor::Start, small, "a group's share, with the group's number");
    }

    /// Draws the units, the groups and the foot.
    fn draw(&self, picture: &mut Picture) {
        let left = self.zoom * MARGIN;
        let units = self.zoom * (MARGIN + HEADING);
        self.bars.draw(picture, (left, units));
        self.gauges.draw(picture, (left, units + self.bars.height() + self.zoom * BETWEEN));
        picture.text((left, self.height() - left), Anchor::Start, self.large(SMALL), self.foot);
    }

    /// Letters that are as large on paper as if nothing had to be small.
    fn large(&self, letters: Letters) -> Letters {
        Letters { size: letters.size * self.zoom, ..letters }
    }
}

/// How many units and groups there are, and how often the planner went through the groups.
fn counts(plan: &Plan) -> String {
    let units = units(plan.left.len(), plan.job.marks.iter().filter(|mark| **mark == SHUT).count());
    let groups = counted(plan.shared.len() as u64, "group", "groups");
    format!("{units}, {groups}, settled in {}", counted(plan.passes, "pass", "passes"))
}

/// A name that the heading has room for: a long one loses its end.
fn shortened(name: &str) -> String {
    let fits = |text: &String| NAME.width(text) <= PAGE.0 - 2.0 * MARGIN;
    let cut = name.char_indices().map(|(end, _)| format!("{}…", &name[..end]));
    let whole = Some(String::from(name)).filter(fits);
    whole.or_else(|| cut.take_while(fits).last()).unwrap_or_default()
}
