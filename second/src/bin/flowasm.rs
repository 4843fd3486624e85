//! `flowasm TEXT [FILE]`: the text made into a file (see view/assemble.rs), on standard output if FILE is not given. A fault
//! of the text gives its line and what is wrong, and nothing is written.

use second::tool::{self, Fault};
use second::view::assemble::assemble_bytes;
use std::io::Write;

fn main() {
    tool::run(env!("CARGO_BIN_NAME"), "TEXT [FILE]", program)
}

fn program(arguments: &[String], out: &mut dyn Write) -> Result<u8, Fault> {
    let (text, file) = match arguments {
        [text] => (text, None),
        [text, file] => (text, Some(file)),
        _ => return Err(Fault::Usage),
    };
    let fault = |fault: second::view::assemble::Fault| format!("{text}:{}: {}", fault.line, fault.message);
    let bytes = assemble_bytes(&tool::read_file(text)?).map_err(fault)?;
    match file {
        Some(file) => tool::write_file(file, &bytes)?,
        None => out.write_all(&bytes)?,
    }
    Ok(0)
}
