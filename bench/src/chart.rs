//! Line charts as SVG: one or more panels side by side, with a legend.

use std::fmt::Write;

/// The width and the height of a panel, and the room around it.
const SIZE: (f64, f64) = (340.0, 280.0);
const MARGIN: (f64, f64) = (64.0, 44.0);
/// The colours of the lines, told apart by most eyes.
const COLOURS: [&str; 6] = ["#0072b2", "#e69f00", "#009e73", "#d55e00", "#cc79a7", "#56b4e9"];

/// One line of a panel.
pub struct Line {
    pub name: String,
    pub points: Vec<(f64, f64)>,
}

/// How an axis runs.
#[derive(Clone, Copy, PartialEq, Eq)]
pub enum Scale {
    Even,
    Logarithmic,
}

/// A panel: its titles and its lines, the first on top. The marks of the first axis are the points' own numbers.
pub struct Panel {
    pub title: String,
    pub across: String,
    pub up: String,
    pub scale: Scale,
    pub lines: Vec<Line>,
}

/// A number's spot between the ends of an axis, from 0 to 1.
fn spot(scale: Scale, number: f64, ends: (f64, f64)) -> f64 {
    match scale {
        Scale::Even => (number - ends.0) / (ends.1 - ends.0),
        Scale::Logarithmic => (number / ends.0).ln() / (ends.1 / ends.0).ln(),
    }
}

impl Panel {
    /// All different numbers across, rising.
    fn across_marks(&self) -> Vec<f64> {
        let mut numbers: Vec<f64> =
            self.lines.iter().flat_map(|line| line.points.iter().map(|point| point.0)).collect();
        numbers.sort_by(f64::total_cmp);
        numbers.dedup();
        numbers
    }

    /// The marks of the other axis: powers of ten, or five equal steps from 0.
    fn up_marks(&self) -> Vec<f64> {
        let numbers = || self.lines.iter().flat_map(|line| line.points.iter().map(|point| point.1));
        let most = numbers().fold(f64::MIN_POSITIVE, f64::max);
        match self.scale {
            Scale::Even => {
                let rough = most / 5.0;
                let unit = 10f64.powf(rough.log10().floor());
                let step = [1.0, 2.0, 2.5, 5.0, 10.0].map(|times| times * unit).into_iter().find(|step| *step >= rough);
                (0..=5).map(|times| f64::from(times) * step.unwrap_or(rough)).collect()
            }
            Scale::Logarithmic => {
                let least = numbers().fold(f64::MAX, f64::min);
                let (from, to) = (least.log10().floor() as i32, most.log10().ceil() as i32);
                (from..=to.max(from + 1)).map(|power| 10f64.powi(power)).collect()
            }
        }
    }

    /// Draws the panel with its left edge at a place.
    fn draw(&self, svg: &mut String, left: f64) {
        let (across, up) = (self.across_marks(), self.up_marks());
        let (across_ends, up_ends) = ((across[0], across[across.len() - 1]), (up[0], up[up.len() - 1]));
        let x = |number: f64| left + MARGIN.0 + SIZE.0 * spot(self.scale, number, across_ends);
        let y = |number: f64| MARGIN.1 + SIZE.1 * (1.0 - spot(self.scale, number, up_ends));
        let (start, end, top, bottom) = (x(across_ends.0), x(across_ends.1), y(up_ends.1), y(up_ends.0));
        let _ = writeln!(svg, "<text x='{start}' y='{}' font-weight='bold'>{}</text>", top - 24.0, self.title);
        let _ = writeln!(svg, "<text x='{start}' y='{}' fill='#555'>{}</text>", top - 8.0, self.up);
        for &mark in &across {
            let at = x(mark);
            let _ = writeln!(svg, "<line x1='{at:.1}' y1='{top}' x2='{at:.1}' y2='{bottom}' stroke='#eee'/>");
            let _ = writeln!(svg, "<text x='{at:.1}' y='{}' text-anchor='middle'>{mark}</text>", bottom + 16.0);
        }
        for &mark in &up {
            let at = y(mark);
            let _ = writeln!(svg, "<line x1='{start}' y1='{at:.1}' x2='{end}' y2='{at:.1}' stroke='#ddd'/>");
            let _ = writeln!(svg, "<text x='{}' y='{:.1}' text-anchor='end'>{mark}</text>", start - 6.0, at + 4.0);
        }
        let middle = (start + end) / 2.0;
        let _ = writeln!(
            svg,
            "<text x='{middle}' y='{}' text-anchor='middle' fill='#555'>{}</text>",
            bottom + 34.0,
            self.across
        );
        for (index, line) in self.lines.iter().enumerate().rev() {
            let colour = COLOURS[index % COLOURS.len()];
            let points: Vec<String> =
                line.points.iter().map(|point| format!("{:.1},{:.1}", x(point.0), y(point.1))).collect();
            let path = points.join(" ");
            let _ = writeln!(svg, "<polyline points='{path}' fill='none' stroke='{colour}' stroke-width='2'/>");
            for point in &line.points {
                let _ = writeln!(svg, "<circle cx='{:.1}' cy='{:.1}' r='3' fill='{colour}'/>", x(point.0), y(point.1));
            }
        }
    }
}

/// Panels side by side, with the legend of the first one below them; all have the same lines in the same order.
pub fn svg(panels: &[Panel]) -> String {
    let step = SIZE.0 + MARGIN.0 + 24.0;
    let legend = panels.first().map_or(0, |panel| panel.lines.len()) as f64;
    let (width, below) = (step * panels.len() as f64, MARGIN.1 + SIZE.1 + 62.0);
    let height = below + 18.0 * legend;
    let mut svg = format!(
        "<svg xmlns='http://www.w3.org/2000/svg' viewBox='0 0 {width} {height}' width='{width}' height='{height}' \
         font-family='sans-serif' font-size='12'>\n<rect width='{width}' height='{height}' fill='white'/>\n"
    );
    for (index, panel) in panels.iter().enumerate() {
        panel.draw(&mut svg, step * index as f64);
    }
    for (index, line) in panels.iter().take(1).flat_map(|panel| &panel.lines).enumerate() {
        let (at, colour) = (below + 18.0 * index as f64, COLOURS[index % COLOURS.len()]);
        let start = MARGIN.0;
        let _ = writeln!(
            svg,
            "<line x1='{start}' y1='{at}' x2='{}' y2='{at}' stroke='{colour}' stroke-width='2'/>",
            start + 24.0
        );
        let _ = writeln!(svg, "<text x='{}' y='{}'>{}</text>", start + 32.0, at + 4.0, line.name);
    }
    svg.push_str("</svg>\n");
    svg
}
