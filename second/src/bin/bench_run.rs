//! `bench_run VERSION PROGRAM`: one run of a program of about a million steps (see benchmark/programs.rs; `empty`: of no file), its code and
//! steps. VERSION is `proved` (feature `first`, see build.rs), `fast` or `second`. `bench_run times PROGRAM`: the nanoseconds of a
//! run of each, in this order, best of many.

#[path = "first/run.rs"]
mod first;

use second::benchmark::programs;
use second::benchmark::times::best;
use second::fast::{self, Work};
use second::layout::settings::STANDARD;
use second::naive::run::{self, ARRAY_VALUES, MOST_BUDGET, SCALARS};
use second::tool::{self, Fault};
use std::io::Write;
use std::sync::Mutex;

static WORK: Mutex<Work> = Mutex::new(Work::new());

/// The scalars and the array values.
struct Store([i64; SCALARS], [i64; ARRAY_VALUES]);

fn proved(bytes: &[u8], store: &mut Store) -> u64 {
    first::run(bytes, MOST_BUDGET, &mut store.0, &mut store.1, STANDARD).expect("built without the feature `first`")
}

fn fast(bytes: &[u8], store: &mut Store) -> u64 {
    fast::run(bytes, MOST_BUDGET, &mut store.0, &mut store.1, fast::STANDARD, &mut WORK.lock().expect("one thread"))
}

fn second(bytes: &[u8], store: &mut Store) -> u64 {
    run::run(bytes, MOST_BUDGET, &mut store.0, &mut store.1, STANDARD).packed()
}

/// The answer of a run in a fresh store, and a sum over the store that it leaves.
fn answer(run: fn(&[u8], &mut Store) -> u64, bytes: &[u8]) -> (u64, i64) {
    let mut store = Store([0; SCALARS], [0; ARRAY_VALUES]);
    store.0[..programs::SCALARS.len()].copy_from_slice(&programs::SCALARS);
    let packed = run(bytes, &mut store);
    let sum = store.0.iter().chain(&store.1).fold(0i64, |sum, v| sum.wrapping_mul(31).wrapping_add(*v));
    (packed, sum)
}

fn main() {
    tool::run(env!("CARGO_BIN_NAME"), "proved|fast|second|times PROGRAM", program)
}

fn program(arguments: &[String], out: &mut dyn Write) -> Result<u8, Fault> {
    let [version, name] = arguments else { return Err(Fault::Usage) };
    let bytes = match programs::PROGRAMS.iter().find(|p| p.name == name) {
        Some(program) => program.file(),
        None if name == "empty" => Vec::new(),
        None => return Err(Fault::Said(format!("no program `{name}`"))),
    };
    let version = match version.as_str() {
        "proved" => proved,
        "fast" => fast,
        "second" => second,
        "times" => {
            let each: [&mut dyn FnMut() -> u64; 3] = [
                &mut || answer(proved, &bytes).0,
                &mut || answer(fast, &bytes).0,
                &mut || answer(second, &bytes).0,
            ];
            writeln!(out, "{}", best(each))?;
            return Ok(0);
        }
        _ => return Err(Fault::Usage),
    };
    let (packed, sum) = answer(version, &bytes);
    writeln!(out, "code {}, {} steps, store {sum}", packed & 0xffff_ffff, packed >> 32)?;
    Ok(0)
}
