//! What the calls of request [5] cost, and that they keep its promises: with masks a file is judged as if nothing in it were modified, and
//! a workbench call costs no more than a reading that stores the masks.

use super::measure::{count_within, Bench, CALLS, CHECK};
use super::puts::{puts, Put, KINDS_OF_PUTS, NAMES};
use super::refused::refused_early;
use second::benchmark::worst::{without_assignments, KINDS};
use second::layout::settings::STANDARD;
use second::naive::read::read;
use std::path::Path;

/// Worst files that ask what a long command modifies, all of it by assignments of two words.
const WORST: [&str; 3] = ["tests/worst/w09-modified.bin", "tests/worst/w10-halves.bin", "tests/worst/w11-modified-one.bin"];

/// The others: of any size, and with each kind of put in one of them at least.
const OTHERS: [&str; 6] = [
    // 16 procedures
    "tests/worst/w16-calls.bin",
    // one command, of 56 words
    "tests/worst/w12-replace.bin",
    "tests/usual/step-procedure.cert",
    "tests/usual/chain-out0-8.cert",
    // a `for`, and assignments of six words
    "examples/total.cert",
    // small
    "tests/usual/fig3b-out0.cert",
];

/// The growing files whose masks are filled.
pub const GROWING: &str = "modified";

/// By how many instructions filling may differ from what the function that fills takes.
const AROUND_FILLING: u64 = 300;

/// Instructions within the calls on one file.
pub struct Cost {
    pub words: usize,
    /// The check, refused at one of its first evidence words, less what it judged.
    pub reading: u64,
    /// The check with masks, alike.
    pub reading_with_masks: u64,
    /// A workbench call with each kind of new command, if there is one.
    pub puts: [Option<u64>; KINDS_OF_PUTS],
}

impl Cost {
    pub fn filling(&self) -> u64 {
        self.reading_with_masks - self.reading
    }

    /// A put of this kind for one reading with masks.
    pub fn put_to_reading(&self, kind: usize) -> Option<f64> {
        Some(self.puts[kind]? as f64 / self.reading_with_masks as f64)
    }
}

/// The same for a file that is judged.
pub struct Judged {
    pub name: String,
    pub cost: Cost,
    /// What the check takes after reading.
    pub judging: u64,
    /// What the check with masks takes after reading and filling.
    pub judging_with_masks: u64,
    /// The check with masks, proved to fast.
    pub to_fast: f64,
}

pub struct Measured {
    pub judged: Vec<Judged>,
    /// A file for each size.
    pub growing: Vec<Cost>,
}

impl Measured {
    /// Stops where a workbench call costs more than a reading with masks, and says all that do.
    pub fn puts_as_cheap_as_reading(&self) {
        let mut dear = Vec::new();
        for one in &self.judged {
            dear.extend(dear_puts(&one.cost).iter().map(|kind| format!("{}: {kind}", one.name)));
        }
        for cost in &self.growing {
            dear.extend(dear_puts(cost).iter().map(|kind| format!("{GROWING}, {} words: {kind}", cost.words)));
        }
        assert!(dear.is_empty(), "a put costs more than a reading with masks: {}", dear.join("; "));
    }
}

/// The kinds of puts that cost more than they may.
fn dear_puts(cost: &Cost) -> Vec<&'static str> {
    let dear = |kind: usize| cost.puts[kind].is_some_and(|put| put > cost.reading_with_masks);
    (0..KINDS_OF_PUTS).filter(|kind| dear(*kind)).map(|kind| NAMES[kind]).collect()
}

/// The check and the check with masks: the call and its program.
const CHECKS: [(&str, &str); 2] = [("flow_check", CHECK), ("flow_check_masks", CALLS)];

/// The instructions of the two, which answer alike.
fn checks(bytes: &[u8]) -> ([u64; 2], String) {
    let [(check, line), (masks, with)] = CHECKS.map(|(call, program)| count_within(call, &[program, "proved"], bytes));
    assert_eq!(with, line, "the check with masks");
    ([check, masks], line)
}

/// What of them is judging.
fn judging(bytes: &[u8]) -> [u64; 2] {
    CHECKS.map(|(_, program)| count_within("judge::judge", &[program, "proved"], bytes).0)
}

fn put_cost(bytes: &[u8], put: &Put) -> u64 {
    let numbers: Vec<String> = [put.place].into_iter().chain(put.new.iter().map(|word| *word as usize)).map(|n| n.to_string()).collect();
    let program: Vec<&str> = [CALLS, "put"].into_iter().chain(numbers.iter().map(String::as_str)).collect();
    let (instructions, line) = count_within("flow_put", &program, bytes);
    assert_eq!(line, "put", "the workbench call");
    instructions
}

fn cost(name: &str, bytes: &[u8]) -> Cost {
    let words = bytes.len() / 4;
    let (early, due) = refused_early(bytes);
    let (calls, line) = checks(&early);
    assert_eq!(line, due, "{name} with another word");
    let judged = judging(&early);
    let [reading, reading_with_masks] = [0, 1].map(|i| calls[i] - judged[i]);
    let file = read(bytes, STANDARD).expect("a file that is read");
    let puts = puts(&file, bytes).map(|put| put.map(|put| put_cost(bytes, &put)));
    println!("{name}, {words} words: {due} after judging {judged:?}; reading {reading}, with masks {reading_with_masks}; puts {puts:?}");
    let cost = Cost { words, reading, reading_with_masks, puts };
    fills(name, bytes, &cost);
    cost
}

/// Filling is the whole difference between the two checks.
fn fills(name: &str, bytes: &[u8], cost: &Cost) {
    let (within, _) = count_within("masks::fill", &[CALLS, "proved"], bytes);
    let filling = cost.filling();
    assert!(filling.abs_diff(within) <= AROUND_FILLING, "{name}: filling {filling}, but {within} within the function");
}

fn judged(bench: &Bench, name: &str, bytes: &[u8]) -> Judged {
    let cost = cost(name, bytes);
    let ([check, masks], line) = checks(bytes);
    assert!(line.starts_with("accepted"), "{name}: {line}");
    let (judging, judging_with_masks) = (check - cost.reading, masks - cost.reading_with_masks);
    println!("{name}: judging {judging}, with masks {judging_with_masks}");
    Judged { name: name.to_string(), cost, judging, judging_with_masks, to_fast: bench.masks_to_fast(bytes) }
}

/// The promise of the check with masks, to one part in a hundred.
fn costs_as_if_not_modified(file: &Judged, other: &Judged) {
    let [with, without] = [file, other].map(|one| one.cost.filling() + one.judging_with_masks);
    let name = &file.name;
    assert!(
        with.abs_diff(without) * 100 <= without,
        "{name}: with masks {with} instructions after reading, but {without} with nothing modified"
    );
}

/// Each worst file and the same with nothing modified, then the others.
fn files(bench: &Bench) -> Vec<Judged> {
    let bytes = |path: &str| std::fs::read(path).unwrap_or_else(|error| panic!("{path}: {error}"));
    let name = |path: &'static str| Path::new(path).file_name().and_then(|name| name.to_str()).unwrap_or(path);
    let mut all = Vec::new();
    for path in WORST {
        let bytes = bytes(path);
        let file = judged(bench, name(path), &bytes);
        let other = judged(bench, "the same, nothing modified", &without_assignments(&bytes));
        costs_as_if_not_modified(&file, &other);
        all.extend([file, other]);
    }
    all.extend(OTHERS.map(|path| judged(bench, name(path), &bytes(path))));
    all
}

pub fn measure(bench: &Bench) -> Measured {
    println!("instructions of the calls with masks");
    let judged = files(bench);
    let kind = KINDS.iter().find(|kind| kind.name == GROWING).expect("a kind of growing files");
    let growing = super::SIZES.iter().map(|words| cost(GROWING, &kind.file(*words))).collect();
    Measured { judged, growing }
}
