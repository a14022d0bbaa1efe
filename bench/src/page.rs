//! Where results go: CSV and SVG files under bench/results, and the tables of docs/BENCHMARKS.md.

use crate::table::Table;
use std::path::{Path, PathBuf};
use std::{fs, io};

/// The page with the tables.
const PAGE: &str = "docs/BENCHMARKS.md";

/// The folder of the repository.
fn root() -> PathBuf {
    Path::new(env!("CARGO_MANIFEST_DIR")).join("..")
}

/// Checks that there is a page with a place for the run, before the minutes of measuring.
pub fn check() -> io::Result<()> {
    filled(&read_page()?, "run", "").map(|_| ())
}

/// The page as it is.
fn read_page() -> io::Result<String> {
    fs::read_to_string(root().join(PAGE)).map_err(|error| io::Error::other(format!("cannot read {PAGE}: {error}")))
}

/// Writes a file of results.
pub fn write_result(name: &str, text: &str) -> io::Result<()> {
    let folder = root().join("bench/results");
    fs::create_dir_all(&folder)?;
    fs::write(folder.join(name), text)
}

/// Writes the tables as CSV, and puts them and the run's line into the page, each between its two marks.
pub fn write_tables(tables: &[Table], run: &str) -> io::Result<()> {
    for table in tables {
        write_result(&format!("{}.csv", table.name), &table.csv())?;
    }
    let mut page = read_page()?;
    for table in tables {
        page = filled(&page, table.name, &table.markdown())?;
    }
    page = filled(&page, "run", &format!("{run}\n"))?;
    fs::write(root().join(PAGE), page)
}

/// The page with new text between the marks of a name.
fn filled(page: &str, name: &str, text: &str) -> io::Result<String> {
    let (begin, end) = (format!("<!-- begin {name} -->\n"), format!("<!-- end {name} -->"));
    let missing = || io::Error::other(format!("{PAGE} lacks the marks of {name}"));
    let (before, rest) = page.split_once(&begin).ok_or_else(missing)?;
    let (_, after) = rest.split_once(&end).ok_or_else(missing)?;
    Ok(format!("{before}{begin}{text}{end}{after}"))
}
