//! `search [SEED [FILES [PAIRS]]] [refused]`: a bounded search for a counterexample
//! to demand 3. Accepted generated files (made backwards, or nearly readable,
//! mutated, with true put in and taken out, or near misses and accepted all the
//! same) are run from PAIRS pairs of stores each. With `refused`, the files are instead those refused with 8
//! or 9, to show that the search can find something. Exit status 1 if an
//! accepted file has a counterexample.

use second::layout::settings::STANDARD;
use second::compare::pairs::{try_pair, Found};
use second::generate::mutate::mutate;
use second::generate::nearly::nearly;
use second::generate::plain::{by_words, tidied};
use second::generate::prng::Prng;
use second::generate::{accepted, file_prng, near_miss};
use second::naive::judge::{check, Answer};
use second::naive::read::read;
use second::tool::rows::hex_of;
use second::tool::{self, Fault};
use std::io::Write;

const BOUND: u64 = 400;

/// How many pairs of each `Found`.
type Counts = [u64; 6];

/// One of the files that are looked at, of every sort.
fn any_file(rng: &mut Prng, refused: bool) -> Vec<u8> {
    match rng.below(6) {
        0 => nearly(rng),
        1 => {
            let base = accepted(rng);
            mutate(rng, &base)
        }
        2 => near_miss(rng),
        3 => by_words(rng),
        _ if refused => near_miss(rng),
        4 => tidied(rng),
        _ => accepted(rng),
    }
}

fn is_wanted(bytes: &[u8], refused: bool) -> bool {
    match check(bytes) {
        Answer::Accepted(_) => !refused,
        Answer::Refused(r) => refused && r.number >= 8,
    }
}

/// Pairs of stores for a file, up to a counterexample; one of an accepted file is written, after `name`.
fn try_file(rng: &mut Prng, bytes: &[u8], pairs: u64, name: Option<&str>, out: &mut dyn Write) -> Result<Counts, Fault> {
    let file = read(bytes, STANDARD).expect("readable");
    let mut counts = [0; 6];
    for _ in 0..pairs {
        let (found, stores) = try_pair(rng, &file, BOUND);
        counts[found as usize] += 1;
        if found == Found::Counterexample {
            if let Some(name) = name {
                writeln!(out, "counterexample: {name}: {}", hex_of(bytes))?;
                writeln!(out, "{stores:?}")?;
            }
            break;
        }
    }
    Ok(counts)
}

fn main() {
    tool::run(env!("CARGO_BIN_NAME"), "[SEED [FILES [PAIRS]]] [refused]", program)
}

fn program(arguments: &[String], out: &mut dyn Write) -> Result<u8, Fault> {
    let (numbers, refused) = tool::numbers_and("refused", arguments);
    let [seed, files, pairs] = tool::numbers(numbers, [1, 10_000, 20])?;
    let mut counts = [0; 6];
    let (mut tried, mut with_pair, mut with_end, mut with_counterexample) = (0, 0, 0, 0);
    let mut i = 0;
    while tried < files {
        let mut rng = file_prng(seed, i);
        i += 1;
        let bytes = any_file(&mut rng, refused);
        if !is_wanted(&bytes, refused) {
            continue;
        }
        tried += 1;
        let name = (!refused).then(|| format!("file {} of seed {seed}", i - 1));
        let here = try_file(&mut rng, &bytes, pairs, name.as_deref(), out)?;
        for (all, here) in counts.iter_mut().zip(here) {
            *all += here;
        }
        let ends = here[3] + here[4] + here[5];
        with_pair += u64::from(here[1] + here[2] + ends > 0);
        with_end += u64::from(ends > 0);
        with_counterexample += u64::from(here[5] > 0);
    }
    let which = if refused { "refused (8 or 9)" } else { "accepted" };
    writeln!(out, "seed {seed}, {tried} {which} files of {i} made, {pairs} pairs each, bound {BOUND} steps")?;
    writeln!(out, "files with a pair of different stores: {with_pair}")?;
    writeln!(out, "files with a pair whose runs both end: {with_end}")?;
    writeln!(out, "files with a counterexample: {with_counterexample}")?;
    let names = ["no pair", "assertion fails", "bound reached", "vacuous", "agree", "counterexample"];
    for (name, count) in names.iter().zip(counts) {
        writeln!(out, "pairs, {name}: {count}")?;
    }
    Ok(u8::from(with_counterexample > 0 && !refused))
}
