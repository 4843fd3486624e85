//! `lines PROGRAM ROWS`: each row's file is given to PROGRAM on standard input, and the line that it
//! writes is compared with the row's. Rows: name, line, bytes, note; the bytes in hexadecimal, or as `file:NAME`
//! for a file beside ROWS. ROWS may be a folder: its file `expected` has the rows, and the named files have the bytes.
//! Exit status 1 if a line is wrong or there is no row.

use second::tool::rows::bytes_of_field;
use second::tool::{self, Fault};
use std::io::{self, Write};
use std::path::Path;
use std::process::{Command, Stdio};

struct Row {
    name: String,
    line: String,
    bytes: Vec<u8>,
}

fn rows(given: &str) -> Result<Vec<Row>, Fault> {
    let whole = Path::new(given).is_dir();
    let text = tool::read_text(&if whole { format!("{given}/expected") } else { given.to_string() })?;
    let mut rows = Vec::new();
    for row in text.lines().filter(|line| !line.starts_with('#')) {
        let fields: Vec<&str> = row.split('\t').collect();
        let [name, line, field, ..] = fields.as_slice() else {
            return Err(Fault::Said(format!("{given}: a row has less than three fields: {row}")));
        };
        let bytes = match whole {
            true => tool::read_file(&format!("{given}/{name}"))?,
            false => bytes_of_field(field, Path::new(given)).map_err(|fault| format!("{given}: {name}: {fault}"))?,
        };
        rows.push(Row { name: name.to_string(), line: line.to_string(), bytes });
    }
    Ok(rows)
}

fn line_of(program: &str, bytes: &[u8]) -> io::Result<String> {
    let mut child = Command::new(program).stdin(Stdio::piped()).stdout(Stdio::piped()).spawn()?;
    // a program may stop reading early
    let _ = child.stdin.take().expect("standard input").write_all(bytes);
    Ok(String::from_utf8_lossy(&child.wait_with_output()?.stdout).into_owned())
}

fn main() {
    tool::run(env!("CARGO_BIN_NAME"), "PROGRAM ROWS", program)
}

fn program(arguments: &[String], out: &mut dyn Write) -> Result<u8, Fault> {
    let [program, given] = arguments else { return Err(Fault::Usage) };
    let (mut count, mut wrong) = (0, 0);
    for row in rows(given)? {
        let line = line_of(program, &row.bytes).map_err(|error| format!("{program}: {error}"))?;
        count += 1;
        if line != format!("{}\n", row.line) {
            wrong += 1;
            writeln!(out, "{}: expected `{}`, the program wrote `{}`", row.name, row.line, line.trim_end())?;
        }
    }
    writeln!(out, "{count} rows, {wrong} wrong")?;
    Ok(u8::from(count == 0 || wrong > 0))
}
