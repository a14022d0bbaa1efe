//! Links the planner's archive: the one that PLANNER_ARCHIVE names, else the one that `tools/prove staticlib planner` makes.

use std::path::{Path, PathBuf};

fn main() {
    println!("cargo:rerun-if-env-changed=PLANNER_ARCHIVE");
    let archive = std::env::var_os("PLANNER_ARCHIVE").map_or_else(made_archive, PathBuf::from);
    let shown = archive.display();
    println!("cargo:rerun-if-changed={shown}");
    if !archive.is_file() {
        eprintln!("no archive at {shown}: 'tools/prove staticlib planner' makes it, PLANNER_ARCHIVE names another");
        std::process::exit(1);
    }
    let folder = archive.parent().expect("a file lies in a folder");
    let name = archive.file_stem().and_then(|stem| stem.to_str()).expect("the archive is named lib*.a");
    println!("cargo:rustc-link-search=native={}", folder.display());
    println!("cargo:rustc-link-lib=static={}", name.trim_start_matches("lib"));
}

/// Where the kit puts the archive of the repository that this package lies in.
fn made_archive() -> PathBuf {
    let here = std::env::var_os("CARGO_MANIFEST_DIR").expect("cargo names the package's folder");
    Path::new(&here).join("../../target/staticlib/libplanner.a")
}
