//! How much stack the proved check takes: the least limit, in steps, under which it answers as it should on every file, under the old settings
//! and under the highest.

use super::highest::options;
use super::measure::{output, CHECK};
use second::benchmark::highest;
use second::benchmark::worst::{deepest, Kind, KINDS};
use second::fast::{check_settings, Work};
use second::layout::settings::HIGHEST;
use second::naive::judge::{check, line_of};
use std::process::Command;

/// Limits that are tried, in KiB.
const STEP: usize = 8;

pub struct Used {
    pub what: &'static str,
    /// The least limit that sufficed; none if none did.
    pub limit: Option<usize>,
    /// KiB that suffice are fewer than these.
    pub under: usize,
    pub files: usize,
}

/// Whether a limit was found for each.
pub fn suffices(all: &[Used]) -> bool {
    all.iter().all(|used| used.limit.is_some())
}

/// A file and the line that is due.
type Due = (Vec<u8>, String);

/// The largest files of some kinds, and others.
fn largest(kinds: &[Kind], mut others: Vec<Vec<u8>>) -> Vec<Vec<u8>> {
    others.extend(kinds.iter().map(|kind| kind.file(8_192)));
    others
}

/// The usual, the worst, the largest growing and the deepest files.
fn files() -> Vec<Due> {
    let mut all = largest(&KINDS, deepest());
    for folder in ["usual", "worst"] {
        all.extend(super::expected(folder).into_iter().map(|file| file.bytes));
    }
    let with_line = |bytes: Vec<u8>| {
        let line = check(&bytes).line();
        (bytes, line)
    };
    all.into_iter().map(with_line).collect()
}

/// The dear and the deepest files for the highest settings; the second implementation takes too long for them.
fn highest_files() -> Vec<Due> {
    let mut work = Box::new(Work::new());
    let with_line = |bytes: Vec<u8>| {
        let line = line_of(check_settings(&bytes, HIGHEST.numbers().into(), &mut work));
        (bytes, line)
    };
    largest(&highest::KINDS, highest::deepest()).into_iter().map(with_line).collect()
}

fn answers(program: &str, limit: usize, bytes: &[u8], line: &str) -> bool {
    let mut shell = Command::new("sh");
    shell.args(["-c", &format!("ulimit -s {limit} && exec {program}")]);
    String::from_utf8_lossy(&output(&mut shell, bytes).stdout).trim_end() == line
}

fn used(what: &'static str, program: &str, files: &[Due], under: usize) -> Used {
    let suffices = |limit: &usize| files.iter().all(|(bytes, line)| answers(program, *limit, bytes, line));
    let limit = (STEP..under).step_by(STEP).find(suffices);
    println!("{what}: {limit:?} KiB of stack suffice for {} files", files.len());
    Used { what, limit, under, files: files.len() }
}

pub fn measure() -> Vec<Used> {
    let (files, highest_files) = (files(), highest_files());
    let given = format!("{CHECK} settings {}", options(HIGHEST).join(" "));
    vec![
        used("the program `flowcheck`", "target/bin/flowcheck", &files, 256),
        used("a program that calls `flow_check`", &format!("{CHECK} proved"), &files, 256),
        used("a program that calls `flow_check_settings`, under the highest", &given, &highest_files, 512),
    ]
}
