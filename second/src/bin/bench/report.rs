//! docs/PERFORMANCE.md.

pub mod highest;

use super::measure::Row;
use super::{machine, masks, puts, stack, Measured};
use second::benchmark::programs::PROGRAMS;
use second::benchmark::worst::KINDS;
use std::fmt::Write;

/// Two or three figures.
fn figures(x: f64) -> String {
    match x {
        x if x < 0.1 => format!("{x:.3}"),
        x if x < 10.0 => format!("{x:.2}"),
        x if x < 100.0 => format!("{x:.1}"),
        _ => format!("{x:.0}"),
    }
}

/// With a comma at each thousand.
fn thousands(n: u64) -> String {
    let digits = n.to_string();
    let mut out = String::new();
    for (i, digit) in digits.chars().enumerate() {
        if i > 0 && (digits.len() - i) % 3 == 0 {
            out.push(',');
        }
        out.push(digit);
    }
    out
}

fn kib(bytes: usize) -> String {
    format!("{:.1}", bytes as f64 / 1024.0)
}

fn check_table(rows: &[Row]) -> String {
    let mut out = String::from(
        "| File | KiB | Instructions | ÷ fast | ÷ second | ÷ yardstick | Time ÷ fast | ÷ second |\n|---|--:|--:|--:|--:|--:|--:|--:|\n",
    );
    for row in rows {
        let yardstick = row.yardstick_ratio().map_or(String::new(), figures);
        let ratios = [figures(row.ratio(1)), figures(row.ratio(2)), yardstick];
        let times = [figures(row.time_ratio(1)), figures(row.time_ratio(2))];
        let (name, size, count) = (&row.name, kib(row.bytes), thousands(row.instructions[0]));
        let _ = writeln!(out, "| {name} | {size} | {count} | {} | {} |", ratios.join(" | "), times.join(" | "));
    }
    out
}

fn run_table(rows: &[Row]) -> String {
    let mut out = String::from(
        "| Program | Steps | Instructions a step | ÷ fast | ÷ second | Time ÷ fast | ÷ second |\n|---|--:|--:|--:|--:|--:|--:|\n",
    );
    for (row, program) in rows.iter().zip(PROGRAMS) {
        let steps = row.answer.split([',', ' ']).filter_map(|n| n.parse::<u64>().ok()).nth(1).unwrap_or(1);
        let each = row.instructions[0] as f64 / steps as f64;
        let ratios = [row.ratio(1), row.ratio(2), row.time_ratio(1), row.time_ratio(2)].map(figures);
        let name = format!("{}: {}", row.name, program.does);
        let _ = writeln!(out, "| {name} | {} | {each:.0} | {} |", thousands(steps), ratios.join(" | "));
    }
    out
}

/// The head of a table by size.
fn size_cells() -> String {
    super::SIZES.iter().map(|words| format!(" {} KiB |", words * 4 / 1024)).collect()
}

/// Instructions a word of the file, by size, and the power of the size that the last doubling shows.
fn growth_table(all: &[Vec<Row>]) -> String {
    let numbers = "--:|".repeat(super::SIZES.len());
    let mut out = format!("| Kind | Version |{} Power |\n|---|---|{numbers}--:|\n", size_cells());
    for (rows, kind) in all.iter().zip(KINDS) {
        for (version, name) in ["proved", "fast"].iter().enumerate() {
            let each = |row: &Row| format!(" {} |", figures(row.instructions[version] as f64 * 4.0 / row.bytes as f64));
            let cells: Vec<String> = rows.iter().map(each).collect();
            let first = if version == 0 { format!("{}: {}", kind.name, kind.tries) } else { String::new() };
            let _ = writeln!(out, "| {first} | {name} |{} {:.1} |", cells.concat(), power(rows, version));
        }
    }
    out
}

fn power(rows: &[Row], version: usize) -> f64 {
    let [.., a, b] = rows else { return 0.0 };
    let cost = (b.instructions[version] as f64 / a.instructions[version] as f64).ln();
    cost / (b.bytes as f64 / a.bytes as f64).ln()
}

fn judged_table(all: &[masks::Judged]) -> String {
    let mut out =
        String::from("| File | Reading | Judging | Filling | Judging with masks | With masks ÷ fast |\n|---|--:|--:|--:|--:|--:|\n");
    for one in all {
        let counts = [one.cost.reading, one.judging, one.cost.filling(), one.judging_with_masks].map(thousands);
        let _ = writeln!(out, "| {} | {} | {} |", one.name, counts.join(" | "), figures(one.to_fast));
    }
    out
}

/// A put of a kind for one reading with masks, if there is one.
fn put_cell(cost: &masks::Cost, kind: usize) -> String {
    cost.put_to_reading(kind).map_or("–".to_string(), |ratio| format!("{ratio:.2}"))
}

fn puts_table(all: &[masks::Judged]) -> String {
    let mut out = format!("| File | Words | Reading with masks | {} |\n|---|--:|--:|{}\n", puts::NAMES.join(" | "), "--:|".repeat(puts::KINDS_OF_PUTS));
    for one in all {
        let cost = &one.cost;
        let counts = [cost.words as u64, cost.reading_with_masks].map(thousands);
        let ratios: Vec<String> = (0..puts::KINDS_OF_PUTS).map(|kind| put_cell(cost, kind)).collect();
        let _ = writeln!(out, "| {} | {} | {} |", one.name, counts.join(" | "), ratios.join(" | "));
    }
    out
}

/// By size: instructions of filling a word, and those of a put for one of reading with masks.
fn filling_table(all: &[masks::Cost]) -> String {
    let line = |name: &str, cell: &dyn Fn(&masks::Cost) -> String| {
        let cells: Vec<String> = all.iter().map(|cost| format!(" {} |", cell(cost))).collect();
        format!("| {name} |{}\n", cells.concat())
    };
    let mut out = format!("| |{}\n|---|{}\n", size_cells(), "--:|".repeat(all.len()));
    out += &line("Filling, instructions a word", &|cost| figures(cost.filling() as f64 / cost.words as f64));
    out += &line("Put ÷ reading with masks, itself", &|cost| put_cell(cost, puts::ITSELF));
    out += &line("Put ÷ reading with masks, another scalar", &|cost| put_cell(cost, puts::OTHER_SCALAR));
    out
}

/// The section on the calls with masks.
pub fn masks(m: &masks::Measured) -> String {
    let judged = judged_table(&m.judged);
    let (puts, filling) = (puts_table(&m.judged), filling_table(&m.growing));
    format!("{MASKS}\n{judged}\n{PUTS}\n{puts}\nBy size, for the growing files `{}`:\n\n{filling}", masks::GROWING)
}

/// From the least to the most of some numbers.
fn range(numbers: impl Iterator<Item = f64>) -> String {
    let all: Vec<f64> = numbers.collect();
    let least = all.iter().copied().fold(f64::INFINITY, f64::min);
    let most = all.iter().copied().fold(0.0, f64::max);
    format!("{} to {}", figures(least), figures(most))
}

fn summary(m: &Measured) -> String {
    let mut out = String::from("| | ÷ fast | ÷ second | ÷ yardstick | Time ÷ fast |\n|---|--:|--:|--:|--:|\n");
    for (name, rows) in [("check, usual files", &m.usual), ("check, worst files", &m.worst), ("runner", &m.runs)] {
        let yardstick = rows.iter().filter_map(|row| row.yardstick_ratio());
        let yardstick = if rows[0].yardstick.is_some() { range(yardstick) } else { String::new() };
        let of = |version: usize| range(rows.iter().map(|row| row.ratio(version)));
        let time = range(rows.iter().map(|row| row.time_ratio(1)));
        let _ = writeln!(out, "| {name} | {} | {} | {yardstick} | {time} |", of(1), of(2));
    }
    out
}

fn stack_lines(all: &[stack::Used]) -> String {
    let mut out = String::new();
    for used in all {
        let found = match used.limit {
            Some(limit) => format!("{limit} KiB suffice"),
            None => format!("less than {} KiB is NOT enough", used.under),
        };
        let _ = writeln!(out, "- {}: {found} for all {} files", used.what, used.files);
    }
    out
}

pub fn text(m: &Measured) -> String {
    let machine: String = machine::lines().iter().map(|line| format!("- {line}\n")).collect();
    format!(
        "{HEAD}\n{machine}\n{}\n{FILES}\n### Usual\n\n{}\n### Worst\n\n{}\n{GROWTH}\n{}\n{}\n{}\n{RUNNER}\n{}\n{STACK}\n{}",
        summary(m),
        check_table(&m.usual),
        check_table(&m.worst),
        growth_table(&m.growing),
        masks(&m.masks),
        highest::section(&m.highest),
        run_table(&m.runs),
        stack_lines(&m.stack),
    )
}

const HEAD: &str = "# Performance

Written by `./benchmark`, which measures again and writes this file and its pictures anew. The proved check and the proved runner, each
called once through its C function, against

- **fast**: a plain fast version in Rust (`second/src/fast`), written for speed where nothing has to be proved: places in the word
  array, each part's end, identifiers and plain form worked out once, truth tables of 64 assignments in a number, arrays lent by the
  caller;
- **second**: the naive second implementation in Rust (`second/src/naive`), trees built on the heap;
- **yardstick**: another plain Rust version, of which only the counts in `tests/usual/expected` and `tests/worst/expected` are here.

Instructions are counted by `valgrind --tool=callgrind` over a process that makes one call, less the count for an empty input. Valgrind
counts a string instruction, with which long arrays are copied and cleared, once for each step of it. Times are the best of many calls, the
versions by turns in one process. Ratios are proved to other: below 1 the proved code takes less. The versions' answers are compared on
the way; a difference stops the benchmark.
";

const FILES: &str = "![The proved check's instructions against the others', file by file](performance-ratios.svg)

## The check, file by file

The files are in `tests/usual` (steps of the mailbox guard of paper 000, chains of steps, a step with a procedure, and a step that is tidied) and
`tests/worst`. Instructions are the proved check's.
";

const GROWTH: &str = "## How the cost grows

Files of `second/src/benchmark/worst.rs`, made in several sizes: instructions for each word of the file. The power is that of the size with
which the whole cost grows at the last doubling: 1 is in proportion, 2 with the square.

![Instructions by file size, a panel for each kind of file](performance-growth.svg)
";

const MASKS: &str = "## With masks

Instructions within the calls of request [5]. **Reading** is a `flow_check` that is refused with 8 at one of its first evidence words: of each
file a variant is made in which one word is another, such that all of it is read and it is refused as early as can be. (At the very first
evidence word if one word can do that, else at the next at which one can; what is judged until the refusal is taken off.) **Filling** is what
`flow_check_masks` takes more on that variant, and **judging** what each of the two takes more on the file itself, which is accepted. With
masks each of three worst files is judged at the cost of the same file with `assert true` for its assignments, where nothing is modified: the
benchmark stops if filling and judging together differ by more than 1 %.
";

const PUTS: &str = "The workbench call, `flow_put`, for one reading with masks, which is reading and filling. The new command is the old one
itself, an assignment to another scalar with which no `for` counts, one to a scalar with which a `for` does, an assert that takes more levels, and
an assignment to another scalar in the body of a procedure; each in the first such place of the file that is put, of at most a sixteenth of its
words, and – where there is none. The benchmark stops where a put costs more than a reading with masks.
";

const RUNNER: &str = "## The runner

Programs of `second/src/benchmark/programs.rs`, with a budget of 1,000,000 steps; the reading of the file is part of it.
";

const STACK: &str = "## Stack

The least limit of the whole process (`ulimit -s`, in steps of 8 KiB) under which every file gets its answer: the usual, the worst and the
largest growing ones, and those in which a rule at the deepest evidence walks the deepest expression (`deepest` in
`second/src/benchmark/worst.rs`); under the highest settings those of depth 256, and the files of \"Highest settings\". It is to be under 256 KiB,
and under 512 KiB under the highest settings. What a call takes at most, over the deepest files of each kind, is in `include/flowcheck.h`,
measured by `flowgate/stack.c`.
";
