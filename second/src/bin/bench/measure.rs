//! Instructions by callgrind and time by the clock, for each version of the check and of the runner.

use std::io::Write;
use std::process::{Command, Output, Stdio};

pub const VERSIONS: [&str; 3] = ["proved", "fast", "second"];
/// Those of the check with masks, and of the check under the highest settings.
const TWO: [&str; 2] = ["proved", "fast"];
pub const CHECK: &str = "second/target/benchmark/bench_check";
pub const CALLS: &str = "second/target/benchmark/bench_calls";
const RUN: &str = "second/target/benchmark/bench_run";

/// What was measured on one file or one program; each array is by version.
#[derive(Clone)]
pub struct Row {
    pub name: String,
    pub bytes: usize,
    /// Start-up taken off.
    pub instructions: [u64; 3],
    pub nanoseconds: [u64; 3],
    /// The published instructions of the yardstick, with its start-up.
    pub yardstick: Option<u64>,
    /// What the versions answered, all alike.
    pub answer: String,
}

pub struct Bench {
    check_start: [u64; 3],
    masks_start: [u64; 2],
    run_start: [u64; 3],
}

pub fn output(command: &mut Command, input: &[u8]) -> Output {
    command.stdin(Stdio::piped()).stdout(Stdio::piped()).stderr(Stdio::piped());
    let mut child = command.spawn().unwrap_or_else(|e| panic!("{command:?}: {e}"));
    // a program may stop reading early
    let _ = child.stdin.take().expect("standard input").write_all(input);
    child.wait_with_output().expect("the program ends")
}

/// The instructions of a process, all of them or those that the options ask for, and its first line.
fn count(options: &[&str], program: &[&str], input: &[u8]) -> (u64, String) {
    let mut valgrind = Command::new("valgrind");
    valgrind.args(["--tool=callgrind", "--callgrind-out-file=/dev/null"]).args(options).args(program);
    let output = output(&mut valgrind, input);
    let log = String::from_utf8_lossy(&output.stderr).into_owned();
    let collected = log.lines().find_map(|line| line.split_once("Collected : "));
    let count = collected.and_then(|(_, number)| number.trim().parse().ok());
    let line = String::from_utf8_lossy(&output.stdout).trim_end().to_string();
    (count.unwrap_or_else(|| panic!("valgrind on {program:?}: {log}")), line)
}

/// The instructions within a function and what it calls, and the process's first line.
pub fn count_within(function: &str, program: &[&str], input: &[u8]) -> (u64, String) {
    let (instructions, line) = count(&[&format!("--toggle-collect={function}")], program, input);
    assert!(instructions > 0, "{program:?} has no function {function} of its own, or does not call it: {line}");
    (instructions, line)
}

/// The counts of some versions, at the same time; they must answer alike.
fn counts<const N: usize>(versions: [&'static str; N], program: &str, argument: &[&str], input: &[u8]) -> ([u64; N], String) {
    let of = |version: &'static str| {
        let words: Vec<&str> = [program, version].iter().chain(argument).copied().collect();
        count(&[], &words, input)
    };
    let all = std::thread::scope(|scope| {
        let threads = versions.map(|version| scope.spawn(move || of(version)));
        threads.map(|thread| thread.join().expect("a count"))
    });
    let answer = all[0].1.clone();
    assert!(all.iter().all(|one| one.1 == answer), "the versions differ: {all:?}");
    (all.map(|one| one.0), answer)
}

/// The nanoseconds of N versions; `which` names them.
fn times<const N: usize>(program: &str, which: &str, argument: &[&str], input: &[u8]) -> [u64; N] {
    let output = output(Command::new(program).arg(which).args(argument), input);
    let text = String::from_utf8_lossy(&output.stdout).into_owned();
    let numbers: Vec<u64> = text.split_whitespace().filter_map(|n| n.parse().ok()).collect();
    numbers.try_into().unwrap_or_else(|_| panic!("times of {program}: {text}"))
}

fn without<const N: usize>(counts: [u64; N], start: [u64; N]) -> [u64; N] {
    std::array::from_fn(|i| counts[i].saturating_sub(start[i]))
}

impl Bench {
    /// The start-up of each version: the count for an empty input.
    pub fn new() -> Bench {
        Bench {
            check_start: counts(VERSIONS, CHECK, &[], &[]).0,
            masks_start: counts(TWO, CALLS, &[], &[]).0,
            run_start: counts(VERSIONS, RUN, &["empty"], &[]).0,
        }
    }

    pub fn check(&self, name: &str, bytes: &[u8], expected: Option<&str>) -> Row {
        let (all, answer) = counts(VERSIONS, CHECK, &[], bytes);
        assert!(expected.is_none_or(|line| line == answer), "{name}: {answer}");
        assert!(answer.starts_with("accepted"), "{name}: {answer}");
        Row {
            name: name.to_string(),
            bytes: bytes.len(),
            instructions: without(all, self.check_start),
            nanoseconds: times(CHECK, "times", &[], bytes),
            yardstick: None,
            answer,
        }
    }

    /// The instructions and the nanoseconds of the proved check and of the fast one under settings, which accept the file.
    pub fn check_under(&self, name: &str, bytes: &[u8], options: &[&str]) -> ([u64; 2], [u64; 2]) {
        let (all, answer) = counts(TWO, CHECK, options, bytes);
        assert!(answer.starts_with("accepted"), "{name}: {answer}");
        let [proved, fast, _] = self.check_start;
        (without(all, [proved, fast]), times(CHECK, "two", options, bytes))
    }

    /// The proved check with masks, for one instruction of the fast one.
    pub fn masks_to_fast(&self, bytes: &[u8]) -> f64 {
        let [proved, fast] = without(counts(TWO, CALLS, &[], bytes).0, self.masks_start);
        proved as f64 / fast as f64
    }

    pub fn run(&self, name: &str) -> Row {
        let (all, answer) = counts(VERSIONS, RUN, &[name], &[]);
        Row {
            name: name.to_string(),
            bytes: 0,
            instructions: without(all, self.run_start),
            nanoseconds: times(RUN, "times", &[name], &[]),
            yardstick: None,
            answer,
        }
    }

    pub fn show(&self, row: Row) -> Row {
        println!("{} ({} bytes): {:?}; {:?}", row.name, row.bytes, row.instructions, row.nanoseconds);
        row
    }
}

/// The start-up of the yardstick, as published with its counts.
const YARDSTICK_START: u64 = 424_256;

impl Row {
    /// The proved version's instructions, for one of the version with this number.
    pub fn ratio(&self, version: usize) -> f64 {
        self.instructions[0] as f64 / self.instructions[version] as f64
    }

    pub fn time_ratio(&self, version: usize) -> f64 {
        self.nanoseconds[0] as f64 / self.nanoseconds[version] as f64
    }

    pub fn yardstick_ratio(&self) -> Option<f64> {
        let count = self.yardstick?.checked_sub(YARDSTICK_START)?;
        Some(self.instructions[0] as f64 / count as f64)
    }
}
