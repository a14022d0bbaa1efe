//! The command's own examples: transcripts of calls and what they print, the calls that its help and the guide show, and
//! the plan sheets.

use super::command::called;
use super::program::{examples, random_text};
use crate::check::{Checks, Topic};
use std::process::Command;

/// Where the transcripts are.
const FOLDER: &str = "examples/command";

/// The names of the command's calls.
const NAMES: [&str; 7] = ["settle", "table", "sheet", "check", "hand-on", "level", "narrow"];

/// The pages that show calls of the command.
const PAGES: [&str; 4] = ["README.md", "docs/USER-GUIDE.md", "bindings/rust/README.md", "examples/README.md"];

/// Tries all of them.
pub fn run(checks: &mut Checks) {
    checks.topic("command, transcripts", "planner", transcripts);
    checks.topic("command, calls in help and pages", "planner", shown_calls);
    checks.topic("command, plan sheets", "planner", sheets);
}

/// A call in a transcript: the line after `$ `, and what is below it.
fn split_calls(transcript: &str) -> Vec<(&str, &str)> {
    transcript.split("$ danivomel").skip(1).map(|call| call.split_once('\n').unwrap_or((call, ""))).collect()
}

/// What a call shows in a transcript: standard output, standard error with `2> ` ahead of each line, and a status above 0.
fn shown(words: &str) -> String {
    let (words, input) = words.split_once(" < ").map_or((words, None), |(words, file)| (words, Some(file)));
    let text = input.map_or(vec![], |file| std::fs::read(file).unwrap_or_default());
    let run = called(&words.split_whitespace().collect::<Vec<_>>(), &text);
    let mut shown = String::from_utf8_lossy(&run.stdout).into_owned();
    shown.extend(String::from_utf8_lossy(&run.stderr).lines().map(|line| format!("2> {line}\n")));
    if run.status.code() != Some(0) {
        shown += &format!("[status {}]\n", run.status.code().unwrap_or(-1));
    }
    shown
}

/// Each transcript is what its calls print; each of the command's calls has one.
fn transcripts(topic: &mut Topic) {
    for name in NAMES.iter().chain(&["refused", "wrong"]) {
        let path = format!("{FOLDER}/{name}.txt");
        let transcript = std::fs::read_to_string(&path).unwrap_or_default();
        let calls = split_calls(&transcript);
        topic.holds(&path, "has calls", !calls.is_empty());
        for (words, expected) in calls {
            topic.same(&(&path, words), "what is shown", shown(words).as_str(), expected);
        }
    }
    let refused = std::fs::read_to_string(format!("{FOLDER}/refused.txt")).unwrap_or_default();
    for (job, _) in examples().iter().filter(|(job, _)| job.starts_with("examples/refused")) {
        topic.holds(job, "is in refused.txt", refused.contains(&format!(" {}\n", job.display())));
    }
}

/// The calls that a text shows: lines that begin with the command's name and one of its calls, without what the shell does
/// beside and what is said of them. Words in capitals stand for others, so such a line is no call.
fn calls_in(text: &str) -> Vec<&str> {
    let calls = text.lines().filter_map(|line| line.trim_start().strip_prefix("danivomel "));
    let calls = calls.map(|line| line.split(" >").next().unwrap_or(line).split("  ").next().unwrap_or(line).trim());
    let is_call = |call: &&str| NAMES.iter().any(|name| call.starts_with(&format!("{name} ")));
    calls.filter(is_call).filter(|call| !call.contains(char::is_uppercase)).collect()
}

/// The calls that help and the pages show do what they say: they end with an answer, or are in a transcript as refused.
fn shown_calls(topic: &mut Topic) {
    let mut texts: Vec<(String, String)> = vec![];
    for name in NAMES {
        let help = String::from_utf8_lossy(&called(&[name, "--help"], b"").stdout).into_owned();
        topic.holds(&name, "help has a call", !calls_in(&help).is_empty());
        topic.holds(&name, "help names the call", help.starts_with(&format!("danivomel {name}")));
        texts.push((name.to_string(), help));
    }
    for page in PAGES {
        texts.push((page.to_string(), std::fs::read_to_string(page).expect("the page is read")));
    }
    for (name, text) in &texts {
        for call in calls_in(text) {
            let run = called(&call.split_whitespace().collect::<Vec<_>>(), b"");
            topic.same(&(name, call), "status", run.status.code(), Some(0));
        }
    }
    for all in ["--help", "-h", "help"] {
        let help = String::from_utf8_lossy(&called(&[all], b"").stdout).into_owned();
        topic.holds(
            &help,
            "help names every call",
            NAMES.iter().all(|name| help.contains(&format!("danivomel {name}"))),
        );
    }
    let guide = std::fs::read_to_string("docs/USER-GUIDE.md").expect("the guide is read");
    for call in ["settle examples/refused/03-tab.job", "table examples/copies-works.job"] {
        let run = called(&call.split_whitespace().collect::<Vec<_>>(), b"");
        let written = String::from_utf8_lossy(&run.stdout) + String::from_utf8_lossy(&run.stderr);
        let indented = |line: &str| if line.is_empty() { "\n".to_string() } else { format!("    {line}\n") };
        let shown: String = written.lines().map(indented).collect();
        topic.holds(&shown, "in the guide", guide.contains(&shown));
    }
    topic.same(&"--version", "printed", called(&["--version"], b"").stdout, b"danivomel 0.1.0\n".to_vec());
}

/// The plan sheets of README's jobs are the pictures in README; all sheets are well-formed.
fn sheets(topic: &mut Topic) {
    let readme = std::fs::read_to_string("README.md").expect("the page is read");
    for name in ["examples/copies-works", "examples/works"] {
        let picture = std::fs::read(format!("{name}.svg")).unwrap_or_default();
        let sheet = called(&["sheet", &format!("{name}.job")], b"").stdout;
        topic.holds(&name, "has its sheet beside it", sheet == picture && sheet.starts_with(b"<svg"));
        topic.holds(&name, "is in README", readme.contains(&format!("]({name}.svg)")));
    }
    let mut texts: Vec<Vec<u8>> = examples().into_iter().map(|(_, text)| text).collect();
    texts.extend((0..40).map(|_| random_text(topic)));
    let folder = "tests/target/sheets";
    std::fs::create_dir_all(folder).expect("a folder for the sheets");
    let mut paths = vec![];
    for (index, text) in texts.iter().enumerate() {
        let run = called(&["sheet"], text);
        if run.status.success() {
            let path = format!("{folder}/{index}.svg");
            std::fs::write(&path, run.stdout).expect("the sheet is written");
            paths.push(path);
        }
    }
    let parse = "import sys, xml.dom.minidom\nfor path in sys.argv[1:]: xml.dom.minidom.parse(path)";
    let parsed = Command::new("python3").args(["-c", parse]).args(&paths).output().expect("python3 runs");
    topic.holds(&(paths.len(), String::from_utf8_lossy(&parsed.stderr)), "well-formed", parsed.status.success());
}
