//! `bench_calls VERSION`: one check with masks of the file on standard input, and its line. VERSION is `proved` (feature `first`, see
//! build.rs) or `fast`. `bench_calls put PLACE WORD..`: one workbench call of the proved version, with these words, each a number, as the
//! new command for PLACE, and its line.

#[path = "first/calls.rs"]
mod first;

use second::fast::{self, Work};
use second::layout::settings::STANDARD;
use second::layout::words::{bytes_of, MOST_BYTES};
use second::naive::judge::line_of;
use second::tool::{self, Fault};
use std::io::Write;
use std::sync::Mutex;

static WORK: Mutex<Work> = Mutex::new(Work::new());
static MASKS: Mutex<[u64; MOST_BYTES / 4]> = Mutex::new([0; MOST_BYTES / 4]);

const NOT_LINKED: &str = "built without the feature `first`";

fn check_with_masks(version: &str, bytes: &[u8], masks: &mut [u64]) -> Result<String, Fault> {
    let packed = match version {
        "proved" => first::check_with_masks(bytes, masks, STANDARD).expect(NOT_LINKED),
        "fast" => fast::check_with_masks(bytes, masks, fast::STANDARD, &mut WORK.lock().expect("one thread")),
        _ => return Err(Fault::Usage),
    };
    Ok(line_of(packed))
}

/// A word among the arguments.
fn word(text: &String) -> Result<u32, Fault> {
    u32::try_from(tool::number(text)?).map_err(|_| Fault::Said(format!("`{text}` is no word, a number up to {}", u32::MAX)))
}

fn put(bytes: &mut [u8], masks: &mut [u64], place: usize, new: &[u32]) -> String {
    match first::put(bytes, masks, place, &bytes_of(new), STANDARD).expect(NOT_LINKED) {
        0 => "put".to_string(),
        packed => line_of(packed),
    }
}

fn main() {
    tool::run(env!("CARGO_BIN_NAME"), "proved|fast|put PLACE WORD.. < FILE", program)
}

fn program(arguments: &[String], out: &mut dyn Write) -> Result<u8, Fault> {
    let mut bytes = tool::read_input()?;
    let mut masks = MASKS.lock().expect("one thread");
    let masks = &mut masks[..bytes.len().min(MOST_BYTES) / 4];
    let line = match arguments {
        [version] => check_with_masks(version, &bytes, masks)?,
        [call, place, new @ ..] if call == "put" => {
            let place = tool::number(place)? as usize;
            let new = new.iter().map(word).collect::<Result<Vec<u32>, Fault>>()?;
            put(&mut bytes, masks, place, &new)
        }
        _ => return Err(Fault::Usage),
    };
    writeln!(out, "{line}")?;
    Ok(0)
}
