//! Tables of results, as CSV and as Markdown.

use std::fmt::Write;

/// A table: its name, its head, and its rows of cells; an empty cell says that nothing was measured.
pub struct Table {
    pub name: &'static str,
    head: Vec<String>,
    rows: Vec<Vec<String>>,
}

impl Table {
    /// A table without rows.
    pub fn new(name: &'static str, head: &[&str]) -> Table {
        Table { name, head: head.iter().map(|word| word.to_string()).collect(), rows: vec![] }
    }

    /// Adds a row, and shows it.
    pub fn add(&mut self, row: Vec<String>) {
        assert_eq!(row.len(), self.head.len(), "a row of table {} has as many cells as its head", self.name);
        let cells = self.head.iter().zip(&row).filter(|(_, cell)| !cell.is_empty());
        let shown: Vec<String> = cells.map(|(head, cell)| format!("{head} {cell}")).collect();
        println!("  {}", shown.join("; "));
        self.rows.push(row);
    }

    /// The table as CSV; cells with a comma are quoted.
    pub fn csv(&self) -> String {
        let quoted = |cell: &String| if cell.contains(',') { format!("\"{cell}\"") } else { cell.clone() };
        let mut text = String::new();
        for row in std::iter::once(&self.head).chain(&self.rows) {
            let cells: Vec<String> = row.iter().map(quoted).collect();
            let _ = writeln!(text, "{}", cells.join(","));
        }
        text
    }

    /// The table as Markdown, without columns in which nothing was measured.
    pub fn markdown(&self) -> String {
        let measured = |column: &usize| self.rows.iter().any(|row| !row[*column].is_empty());
        let columns: Vec<usize> = (0..self.head.len()).filter(measured).collect();
        let line = |row: &Vec<String>| {
            let cells: Vec<&str> = columns.iter().map(|&column| row[column].as_str()).collect();
            format!("| {} |\n", cells.join(" | "))
        };
        let mut text = line(&self.head);
        text.push_str(&"|---".repeat(columns.len()));
        text.push_str("|\n");
        for row in &self.rows {
            text.push_str(&line(row));
        }
        text
    }
}

/// A number with three digits that count, or nothing.
pub fn digits(number: Option<f64>) -> String {
    match number {
        None => String::new(),
        Some(number) if number >= 100.0 => format!("{number:.0}"),
        Some(number) if number >= 10.0 => format!("{number:.1}"),
        Some(number) if number >= 1.0 => format!("{number:.2}"),
        Some(number) => format!("{number:.3}"),
    }
}

/// A share of a whole in hundredths.
pub fn percent(part: u64, whole: u64) -> String {
    match whole {
        0 => String::new(),
        _ => format!("{:.2} %", 100.0 * part as f64 / whole as f64),
    }
}
