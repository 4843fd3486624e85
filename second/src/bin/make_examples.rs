//! `make_examples FOLDER`: writes the texts and files of the examples that are made from trees (see examples/).

use second::examples;
use second::tool::{self, Fault};
use std::io::Write;

fn main() {
    tool::run(env!("CARGO_BIN_NAME"), "FOLDER", program)
}

fn program(arguments: &[String], _: &mut dyn Write) -> Result<u8, Fault> {
    let [folder] = arguments else { return Err(Fault::Usage) };
    for example in examples::all() {
        tool::write_file(&format!("{folder}/{}.txt", example.name), example.text().as_bytes())?;
        tool::write_file(&format!("{folder}/{}.cert", example.name), &example.bytes())?;
    }
    Ok(0)
}
