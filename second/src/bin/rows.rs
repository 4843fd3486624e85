//! `rows SEED COUNT check|runs`: generated files as rows in the form of the
//! vectors' check.txt or runs.txt, with the second implementation's answers
//! under the old settings.

use second::generate::run_cases::run_case;
use second::generate::{file_prng, mixed};
use second::layout::settings::STANDARD;
use second::naive::judge::check;
use second::naive::run::{run, SCALARS};
use second::tool::rows::{changes_of, hex_of};
use second::tool::{self, Fault};
use std::io::{BufWriter, Write};

fn main() {
    tool::run(env!("CARGO_BIN_NAME"), "SEED COUNT check|runs", program)
}

fn program(arguments: &[String], out: &mut dyn Write) -> Result<u8, Fault> {
    let [seed, count, which] = arguments else { return Err(Fault::Usage) };
    let (seed, count) = (tool::number(seed)?, tool::number(count)?);
    if which != "check" && which != "runs" {
        return Err(Fault::Usage);
    }
    let mut out = BufWriter::new(out);
    for i in 0..count {
        let row = if which == "check" {
            let (kind, bytes) = mixed(seed, i);
            format!("s{seed}-{i}\t{}\t{}\t{kind:?}", check(&bytes).line(), hex_of(&bytes))
        } else {
            let case = run_case(&mut file_prng(seed, i));
            let mut store = case.store.clone();
            let (scalars, arrays) = store.split_at_mut(SCALARS);
            let outcome = run(&case.bytes, case.budget, scalars, arrays, STANDARD);
            let lent = changes_of(&vec![0; case.store.len()], &case.store);
            let changes = changes_of(&case.store, &store);
            format!(
                "s{seed}-{i}\t{}\t{}\t{}\t{}\t{lent}\t{changes}",
                case.budget,
                outcome.end_text(),
                outcome.steps,
                hex_of(&case.bytes)
            )
        };
        writeln!(out, "{row}")?;
    }
    out.flush()?;
    Ok(0)
}
