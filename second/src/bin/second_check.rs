//! As `flowcheck`, under settings (request [6]; the old ones if none are given): reads standard input, writes one line.

use second::naive::judge::check_settings;
use second::tool::{self, Fault};
use std::io::Write;

fn main() {
    tool::run(env!("CARGO_BIN_NAME"), &format!("{} < FILE", tool::SETTINGS), program)
}

fn program(arguments: &[String], out: &mut dyn Write) -> Result<u8, Fault> {
    let (settings, []) = tool::settings(arguments)? else { return Err(Fault::Usage) };
    writeln!(out, "{}", check_settings(&tool::read_input()?, settings).line())?;
    Ok(0)
}
