//! `flowview FILE`: any file, word by word; `flowview --parts FILE`: its program, precondition and postcondition in
//! readable notation; `flowview --masks FILE`: what each of its commands modifies (see view/mod.rs and view/masks.rs). Before that,
//! settings as `--depth 256` (request [6]; the old ones if none are given). The exit status is 0 if the file is accepted, 1 if it is
//! refused.

use second::layout::settings::Settings;
use second::naive::judge::{check_settings, Answer};
use second::tool::{self, Fault};
use second::view::masks::view_masks;
use second::view::show::NUMBERED;
use second::view::{view, view_parts};
use std::io::Write;

fn main() {
    tool::run(env!("CARGO_BIN_NAME"), &format!("{} [--parts | --masks] FILE", tool::SETTINGS), program)
}

fn program(arguments: &[String], out: &mut dyn Write) -> Result<u8, Fault> {
    let (settings, arguments) = tool::settings(arguments)?;
    let (show, file): (fn(&[u8], Settings) -> String, _) = match arguments {
        [file] if !file.starts_with("--") => (view, file),
        [option, file] if option == "--parts" => (|bytes, settings| view_parts(bytes, &NUMBERED, settings), file),
        [option, file] if option == "--masks" => (|bytes, settings| view_masks(bytes, &NUMBERED, settings), file),
        _ => return Err(Fault::Usage),
    };
    let bytes = tool::read_file(file)?;
    let text = show(&bytes, settings);
    out.write_all(text.as_bytes())?;
    Ok(u8::from(matches!(check_settings(&bytes, settings), Answer::Refused(_))))
}
