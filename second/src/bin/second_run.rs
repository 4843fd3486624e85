//! `second_run [SETTINGS] BUDGET [STORE]`: the file on standard input, the store as `index=value,...` (see tool/rows.rs), settings as
//! `--depth 256` (request [6]; the old ones if none are given). Writes the end, the steps and the changes, separated by tabs.

use second::naive::run::{run, SCALARS};
use second::tool::rows::{changes_of, store_of};
use second::tool::{self, Fault};
use std::io::Write;

fn main() {
    tool::run(env!("CARGO_BIN_NAME"), &format!("{} BUDGET [INDEX=VALUE,...] < FILE", tool::SETTINGS), program)
}

fn program(arguments: &[String], out: &mut dyn Write) -> Result<u8, Fault> {
    let (settings, arguments) = tool::settings(arguments)?;
    let (budget, store) = match arguments {
        [budget] => (budget, ""),
        [budget, store] => (budget, store.as_str()),
        _ => return Err(Fault::Usage),
    };
    let (budget, old) = (tool::number(budget)?, store_of(store)?);
    let bytes = tool::read_input()?;
    let mut store = old.clone();
    let (scalars, arrays) = store.split_at_mut(SCALARS);
    let outcome = run(&bytes, budget, scalars, arrays, settings);
    writeln!(out, "{}\t{}\t{}", outcome.end_text(), outcome.steps, changes_of(&old, &store))?;
    Ok(0)
}
