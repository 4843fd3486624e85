//! As `flowcheck`, by the fast version, under settings (request [6]; the old ones if none are given): reads standard input, writes one line.

use second::fast::{check_settings, Work};
use second::naive::judge::line_of;
use second::tool::{self, Fault};
use std::io::Write;
use std::sync::Mutex;

static WORK: Mutex<Work> = Mutex::new(Work::new());

fn main() {
    tool::run(env!("CARGO_BIN_NAME"), &format!("{} < FILE", tool::SETTINGS), program)
}

fn program(arguments: &[String], out: &mut dyn Write) -> Result<u8, Fault> {
    let (settings, []) = tool::settings(arguments)? else { return Err(Fault::Usage) };
    let bytes = tool::read_input()?;
    let answer = check_settings(&bytes, settings.numbers().into(), &mut WORK.lock().expect("one thread"));
    writeln!(out, "{}", line_of(answer))?;
    Ok(0)
}
