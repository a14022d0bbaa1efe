//! The elements of an SVG picture, and letters whose width is known before they are drawn.

use std::fmt::Write;

/// The one colour beside black and greys; printed in grey it is darker than PALE and lighter than BLACK.
pub const ACCENT: &str = "#3a78ab";
/// The colour of what is read first.
pub const BLACK: &str = "#111";
/// The colour of what is read second.
pub const GREY: &str = "#666";
/// The colour of lines that only guide the eye.
pub const PALE: &str = "#ddd";
/// The colour of the paper.
pub const WHITE: &str = "#fff";

/// A place in the picture, or a size: across and down.
pub type Place = (f64, f64);

/// What draws a line: its colour and its width.
pub type Pen = (&'static str, f64);

/// Where a text stands about its place.
#[derive(Clone, Copy)]
pub enum Anchor {
    /// The text begins there.
    Start,
    /// Its middle is there.
    Middle,
    /// It ends there.
    End,
}

/// A kind of letters.
#[derive(Clone, Copy)]
pub struct Letters {
    /// Their height.
    pub size: f64,
    /// Whether they are bold.
    pub bold: bool,
    /// Their colour.
    pub colour: &'static str,
}

impl Letters {
    /// Letters of a size, neither bold nor grey.
    pub const fn of_size(size: f64) -> Letters {
        Letters { size, bold: false, colour: BLACK }
    }

    /// The same letters in bold.
    pub const fn bold(self) -> Letters {
        Letters { bold: true, ..self }
    }

    /// The same letters in grey.
    pub const fn grey(self) -> Letters {
        Letters { colour: GREY, ..self }
    }

    /// The width of a text. Which font a browser has is not known here, so it is that of the widest usual one; in all
    /// others a text is somewhat narrower than its room.
    pub fn width(self, text: &str) -> f64 {
        let em = if self.bold { 1.1 * self.size } else { self.size };
        em * text.chars().map(letter_width).sum::<f64>()
    }

    /// The same letters, or as much smaller ones as a text needs to be no wider than this.
    pub fn within(self, width: f64, text: &str) -> Letters {
        Letters { size: self.size * (width / self.width(text).max(width)), ..self }
    }
}

/// The width of a letter of size 1.
fn letter_width(letter: char) -> f64 {
    match letter {
        ' ' | '\u{a0}' | ',' | '.' | ':' | 'i' | 'j' | 'l' | '/' | '·' => 0.33,
        'f' | 'r' | 't' | '(' | ')' | '-' => 0.42,
        '0'..='9' | 'a'..='l' | 'n'..='v' | 'x'..='z' | '_' | '–' => 0.64,
        'A'..='L' | 'N'..='V' | 'X'..='Z' => 0.79,
        _ => 1.0,
    }
}

/// A picture on the way: the elements that it has so far.
#[derive(Default)]
pub struct Picture(String);

impl Picture {
    /// Adds a rectangle of a colour, with an edge.
    pub fn rect(&mut self, (x, y): Place, (width, height): Place, colour: &str, (edge, pen): Pen) {
        let _ = writeln!(
            self.0,
            "<rect x='{x:.1}' y='{y:.1}' width='{width:.1}' height='{height:.1}' \
             fill='{colour}' stroke='{edge}' stroke-width='{pen:.1}'/>"
        );
    }

    /// Adds a straight line.
    pub fn line(&mut self, from: Place, to: Place, pen: Pen) {
        self.dashed(from, to, pen, "");
    }

    /// Adds a straight line with dashes, or without where they are empty.
    pub fn dashed(&mut self, (x, y): Place, (to_x, to_y): Place, (colour, width): Pen, dashes: &str) {
        let dashes = if dashes.is_empty() { String::new() } else { format!(" stroke-dasharray='{dashes}'") };
        let _ = writeln!(
            self.0,
            "<line x1='{x:.1}' y1='{y:.1}' x2='{to_x:.1}' y2='{to_y:.1}' \
             stroke='{colour}' stroke-width='{width:.1}'{dashes}/>"
        );
    }

    /// Adds a text.
    pub fn text(&mut self, place: Place, anchor: Anchor, letters: Letters, text: &str) {
        self.texts(place, anchor, &[(letters, text)]);
    }

    /// Adds texts that follow each other on one line, without the empty ones.
    pub fn texts(&mut self, (x, y): Place, anchor: Anchor, texts: &[(Letters, &str)]) {
        let anchor = match anchor {
            Anchor::Start => "",
            Anchor::Middle => " text-anchor='middle'",
            Anchor::End => " text-anchor='end'",
        };
        let texts = texts.iter().filter(|(_, text)| !text.is_empty());
        let spans: String = texts.map(|(letters, text)| span(*letters, text)).collect();
        if !spans.is_empty() {
            let _ = writeln!(self.0, "<text x='{x:.1}' y='{y:.1}'{anchor}>{spans}</text>");
        }
    }

    /// Begins a part of the picture that a browser names when it is pointed at.
    pub fn begin(&mut self, named: &str) {
        let _ = writeln!(self.0, "<g><title>{}</title>", escaped(named));
    }

    /// Ends the part that was begun.
    pub fn end(&mut self) {
        self.0.push_str("</g>\n");
    }

    /// The whole picture: its size on paper in millimetres, its size in its own measure, its title and what is on it.
    pub fn drawn(self, paper: Place, (width, height): Place, title: &str, description: &str) -> String {
        format!(
            "<svg xmlns='http://www.w3.org/2000/svg' width='{:.1}mm' height='{:.1}mm' \
             viewBox='0 0 {width:.1} {height:.1}' \
             font-family='Helvetica, Arial, Liberation Sans, DejaVu Sans, sans-serif'>\n\
             <title>{}</title>\n<desc>{}</desc>\n<style>@page {{ size: A4; margin: 0 }}</style>\n\
             <rect width='{width:.1}' height='{height:.1}' fill='{WHITE}'/>\n{}</svg>\n",
            paper.0,
            paper.1,
            escaped(title),
            escaped(description),
            self.0
        )
    }
}

/// A text in its letters.
fn span(letters: Letters, text: &str) -> String {
    let weight = if letters.bold { " font-weight='bold'" } else { "" };
    let Letters { size, colour, .. } = letters;
    format!("<tspan font-size='{size:.2}'{weight} fill='{colour}'>{}</tspan>", escaped(text))
}

/// A text as XML has it: what marks it up is written as its name, and what it may not hold becomes U+FFFD.
fn escaped(text: &str) -> String {
    text.chars().map(escaped_letter).collect()
}

/// A letter as XML has it.
fn escaped_letter(letter: char) -> String {
    match letter {
        '&' => "&amp;".into(),
        '<' => "&lt;".into(),
        '>' => "&gt;".into(),
        '\'' => "&apos;".into(),
        '"' => "&quot;".into(),
        '\u{fffe}' | '\u{ffff}' => '\u{fffd}'.into(),
        control if control.is_control() => '\u{fffd}'.into(),
        plain => plain.into(),
    }
}
