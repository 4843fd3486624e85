//! `compare_runs SEED COUNT [ROWS]`: makes COUNT runs, some under settings of their own, and compares the second implementation's end, steps
//! and whole store with those of the fast version and of the first, if one is linked (feature `first`, see build.rs); and these two with
//! the rows of a file in the form of the vectors' runs.txt, if one is given. Exit status 1 on a difference.

#[path = "first/run.rs"]
mod first;

use second::generate::file_prng;
use second::generate::run_cases::{run_case, RunCase};
use second::layout::settings::{Settings, HIGHEST, STANDARD};
use second::naive::run::{run, SCALARS};
use second::tool::calls::FAST;
use second::tool::rows::{bytes_of_hex, changes_of, hex_of, store_of};
use second::tool::{self, Fault};
use std::io::Write;

fn end_text(code: u64) -> String {
    if code == 0 {
        "ended".to_string()
    } else {
        format!("refused {} {}", code / 65_536, code % 65_536)
    }
}

/// The end, the steps and what changed in the store.
type Outcome = (String, u64, String);

/// Steps × 2^32 + 0 or number × 65,536 + place; the two slices are the store.
type Answer = fn(&[u8], u64, &mut [i64], &mut [i64], Settings) -> Option<u64>;

fn outcome(answer: Answer, case: &RunCase) -> Option<Outcome> {
    let mut after = case.store.clone();
    let (scalars, values) = after.split_at_mut(SCALARS);
    let packed = answer(&case.bytes, case.budget, scalars, values, case.settings)?;
    Some((end_text(packed & 0xffff_ffff), packed >> 32, changes_of(&case.store, &after)))
}

/// Which version, and its answer.
const VERSIONS: [(&str, Answer); 2] = [("first", first::run), ("fast", FAST.run)];

struct Comparison<'a> {
    out: &'a mut dyn Write,
    compared: u64,
    differences: u64,
}

impl Comparison<'_> {
    fn run(&mut self, name: &str, case: &RunCase, want: Outcome) -> Result<(), Fault> {
        for (which, answer) in VERSIONS {
            let Some(got) = outcome(answer, case) else { continue };
            self.compared += 1;
            if got != want {
                self.differences += 1;
                let (bytes, settings) = (hex_of(&case.bytes), case.settings.numbers());
                writeln!(self.out, "{name}, settings {settings:?}: {bytes}\n  {which} {got:?}\n  wanted {want:?}")?;
            }
        }
        Ok(())
    }

    fn generated(&mut self, seed: u64, i: u64) -> Result<(), Fault> {
        let case = run_case(&mut file_prng(seed, i));
        let mut store = case.store.clone();
        let (scalars, arrays) = store.split_at_mut(SCALARS);
        let outcome = run(&case.bytes, case.budget, scalars, arrays, case.settings);
        let want = (outcome.end_text(), outcome.steps, changes_of(&case.store, &store));
        self.run(&format!("seed {seed}, run {i}"), &case, want)
    }

    fn row(&mut self, row: &str) -> Result<(), Fault> {
        let fields: Vec<&str> = row.split('\t').collect();
        let [name, budget, end, steps, hex, store, changes, ..] = fields.as_slice() else {
            return Err(Fault::Said(format!("a row has less than seven fields: {row}")));
        };
        let want = (end.to_string(), tool::number(steps)?, changes.to_string());
        let (bytes, budget, store) = (bytes_of_hex(hex)?, tool::number(budget)?, store_of(store)?);
        self.run(name, &RunCase { bytes, budget, store, settings: STANDARD }, want)
    }

    /// Refusal 11, or before it 19: a store of another size, untouched, with no step.
    fn other_sizes(&mut self, file: &[u8], settings: Settings, number: u64) -> Result<(), Fault> {
        for (n, k) in [(31, 2048), (33, 2048), (32, 2047), (32, 2049), (0, 0)] {
            for (which, answer) in VERSIONS {
                let (mut scalars, mut values) = (vec![7i64; n], vec![7i64; k]);
                let Some(got) = answer(file, 10, &mut scalars, &mut values, settings) else { continue };
                self.compared += 1;
                if got != number * 65_536 || scalars.iter().chain(&values).any(|v| *v != 7) {
                    self.differences += 1;
                    writeln!(self.out, "{which}, a store of {n} and {k}: {:?}", (got >> 32, got & 0xffff_ffff))?;
                }
            }
        }
        Ok(())
    }
}

fn main() {
    tool::run(env!("CARGO_BIN_NAME"), "SEED COUNT [ROWS]", program)
}

fn program(arguments: &[String], out: &mut dyn Write) -> Result<u8, Fault> {
    let (seed, count, rows) = match arguments {
        [seed, count] => (seed, count, String::new()),
        [seed, count, rows] => (seed, count, tool::read_text(rows)?),
        _ => return Err(Fault::Usage),
    };
    let (seed, count) = (tool::number(seed)?, tool::number(count)?);
    let mut all = Comparison { out, compared: 0, differences: 0 };
    for i in 0..count {
        all.generated(seed, i)?;
    }
    for row in rows.lines().filter(|row| !row.starts_with('#')) {
        all.row(row)?;
    }
    let file = &run_case(&mut file_prng(seed, 0)).bytes;
    all.other_sizes(file, STANDARD, 11)?;
    all.other_sizes(file, HIGHEST, 11)?;
    all.other_sizes(file, Settings { depth: 257, ..HIGHEST }, 19)?;
    let Comparison { out, compared, differences } = all;
    writeln!(out, "seed {seed}: {compared} runs compared, {differences} differences")?;
    Ok(u8::from(differences > 0))
}
