//! What a customer installs, and the commands of make: from another folder, with wrong words, and with jobs that are refused.

use crate::check::{Checks, Topic};
use std::path::{Path, PathBuf};
use std::process::{Command, Output};

/// Where it is installed.
const PREFIX: &str = "tests/target/installed";

/// What is installed.
const FILES: [&str; 7] = [
    "bin/settle",
    "bin/hand_on",
    "bin/danivomel",
    "include/danivomel.h",
    "lib/libplanner.a",
    "lib/libdanivomel.so",
    "lib/python/danivomel.py",
];

/// Tries both.
pub fn run(checks: &mut Checks) {
    checks.topic("make install", "planner", installed);
    checks.topic("make run and make hand-on", "planner", made);
    checks.topic("package for Python", "planner", python);
}

/// What a call of make does, from a folder.
fn make(folder: &Path, words: &[&str]) -> Output {
    let root = std::env::current_dir().expect("the repository's folder");
    let folder = folder.canonicalize().expect("a folder");
    let mut make = Command::new("make");
    make.arg("-s").arg("-C").arg(root).args(words).current_dir(&folder).env("PWD", &folder);
    make.output().expect("make starts")
}

/// What a call prints, and whether it succeeds.
fn printed(command: &mut Command) -> (String, bool) {
    let run = command.output().expect("the program starts");
    (String::from_utf8_lossy(&run.stdout).into_owned(), run.status.success())
}

/// Everything is put below the prefix and works there; a prefix that cannot be had is refused in one line.
fn installed(topic: &mut Topic) {
    let _ = std::fs::remove_dir_all(PREFIX);
    let install = make(Path::new("tests/target"), &["install", "PREFIX=installed"]);
    topic.holds(&String::from_utf8_lossy(&install.stderr), "status", install.status.success());
    for file in FILES {
        topic.holds(&file, "installed", Path::new(PREFIX).join(file).is_file());
    }
    let path = |file: &str| Path::new(PREFIX).join(file);
    let report = std::fs::read_to_string("examples/press.report").expect("the example is read");
    let settled = printed(Command::new(path("bin/danivomel")).args(["settle", "examples/press.job"]));
    topic.same(&"bin/danivomel", "report", settled, (report.clone(), true));
    let units = report.split_once('\n').expect("the report has lines").1.to_string();
    for (name, library) in [("archive", vec![path("lib/libplanner.a")]), ("shared library", shared(&path("lib")))] {
        let program = path("press");
        let mut compiler = Command::new("cc");
        compiler.arg("-I").arg(path("include")).arg("examples/press.c").args(library).arg("-o").arg(&program);
        topic.same(&name, "compiled and linked", printed(&mut compiler), (String::new(), true));
        topic.same(&name, "printed from C", printed(&mut Command::new(program)), (units.clone(), true));
    }
    let call = "import danivomel; print(danivomel.read('(unit 1 5)\\n').table[0].high)";
    let mut from_python = Command::new("python3");
    from_python.args(["-c", call]).env("PYTHONPATH", path("lib/python")).env_remove("DANIVOMEL_LIBRARY");
    topic.same(&"module for Python", "printed", printed(&mut from_python), ("5\n".to_string(), true));
    for prefix in ["PREFIX=", "PREFIX=README.md", "PREFIX=/proc/none"] {
        let run = make(Path::new("."), &["install", prefix]);
        let told = String::from_utf8_lossy(&run.stderr);
        topic.holds(&(prefix, &told), "one line", !run.status.success() && told.starts_with("install: "));
    }
}

/// The words that link a program with the shared library of a folder.
fn shared(folder: &Path) -> Vec<PathBuf> {
    let folder = folder.canonicalize().expect("the library's folder");
    let shown = folder.display();
    vec![format!("-L{shown}").into(), "-ldanivomel".into(), format!("-Wl,-rpath,{shown}").into()]
}

/// Jobs by paths from where the caller stands, refused and missing ones too, and nothing said of proofs that are there.
fn made(topic: &mut Topic) {
    let jobs = Path::new("examples/refused");
    let cases: [(&str, &str, bool); 5] = [
        ("run", "JOB=../press.job", true),
        ("run", "JOB=09-twice.job", false),
        ("run", "JOB=none.job", false),
        ("hand-on", "JOB=../press.job", true),
        ("hand-on", "JOB=09-twice.job", false),
    ];
    for (name, job, succeeds) in cases {
        let run = make(jobs, &[name, job]);
        let (written, told) = (String::from_utf8_lossy(&run.stdout), String::from_utf8_lossy(&run.stderr));
        topic.same(&(name, job, &written, &told), "status", run.status.success(), succeeds);
        topic.holds(&(name, job, &told), "nothing of proofs", !told.contains("prov"));
        topic.holds(&(name, job), "words exactly for a failure", told.is_empty() == succeeds);
        topic.same(&(name, job), "refusal's line", written.contains("(refused 9 3)\n"), job == "JOB=09-twice.job");
    }
    let report = std::fs::read_to_string("examples/press.report").expect("the example is read");
    let run = make(jobs, &["run", "JOB=../press.job"]);
    let written = String::from_utf8_lossy(&run.stdout);
    topic.holds(&written, "the report", written.ends_with(&format!("report:\n{report}")));
}

/// The module's own tests, each by its line.
fn python(topic: &mut Topic) {
    let mut tests = Command::new("python3");
    tests.args(["-B", "-m", "unittest", "discover", "-v", "-s", "bindings/python"]);
    let run = tests.output().expect("python3 starts");
    let told = String::from_utf8_lossy(&run.stderr);
    let lines: Vec<&str> = told.lines().filter(|line| line.contains(" ... ")).collect();
    for line in &lines {
        topic.holds(line, "test", line.ends_with(" ... ok"));
    }
    topic.holds(&told, "all tests", run.status.success() && !lines.is_empty());
}
