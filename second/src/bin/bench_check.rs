//! `bench_check VERSION [SETTINGS]`: one check of the file on standard input, and its line. VERSION is `proved` (feature `first`, see
//! build.rs), `fast` or `second`; settings are as `--depth 256`, the old ones if none are given. Then `proved` is the call without settings;
//! `settings` is the proved call with them, also if they are the old ones. `bench_check times [SETTINGS]`: the nanoseconds of a call of each,
//! in this order, best of many; `bench_check two [SETTINGS]`: of the first two.

#[path = "first/check.rs"]
mod first;
#[path = "first/settings.rs"]
mod settings;

use second::benchmark::times::best;
use second::fast::{self, Work};
use second::layout::settings::{Settings, STANDARD};
use second::naive::judge;
use second::tool::{self, Fault};
use std::io::Write;
use std::sync::Mutex;

static WORK: Mutex<Work> = Mutex::new(Work::new());

const NOT_LINKED: &str = "built without the feature `first`";

/// The call without settings where they are the old ones.
fn proved(bytes: &[u8], under: Settings) -> u32 {
    if under == STANDARD {
        return first::check(bytes).expect(NOT_LINKED);
    }
    proved_settings(bytes, under)
}

fn proved_settings(bytes: &[u8], under: Settings) -> u32 {
    settings::check_settings(bytes, under).expect(NOT_LINKED)
}

fn fast(bytes: &[u8], under: Settings) -> u32 {
    fast::check_settings(bytes, under.numbers().into(), &mut WORK.lock().expect("one thread"))
}

fn second(bytes: &[u8], under: Settings) -> u32 {
    judge::check_settings(bytes, under).packed()
}

fn times(bytes: &[u8], under: Settings) -> String {
    let each: [&mut dyn FnMut() -> u64; 3] = [
        &mut || u64::from(proved(bytes, under)),
        &mut || u64::from(fast(bytes, under)),
        &mut || u64::from(second(bytes, under)),
    ];
    best(each)
}

fn two_times(bytes: &[u8], under: Settings) -> String {
    best([&mut || u64::from(proved(bytes, under)), &mut || u64::from(fast(bytes, under))])
}

fn main() {
    tool::run(env!("CARGO_BIN_NAME"), &format!("proved|settings|fast|second|times|two {} < FILE", tool::SETTINGS), program)
}

fn program(arguments: &[String], out: &mut dyn Write) -> Result<u8, Fault> {
    let [version, rest @ ..] = arguments else { return Err(Fault::Usage) };
    let (under, []) = tool::settings(rest)? else { return Err(Fault::Usage) };
    let line = match version.as_str() {
        "proved" => judge::line_of(proved(&tool::read_input()?, under)),
        "settings" => judge::line_of(proved_settings(&tool::read_input()?, under)),
        "fast" => judge::line_of(fast(&tool::read_input()?, under)),
        "second" => judge::line_of(second(&tool::read_input()?, under)),
        "times" => times(&tool::read_input()?, under),
        "two" => two_times(&tool::read_input()?, under),
        _ => return Err(Fault::Usage),
    };
    writeln!(out, "{line}")?;
    Ok(0)
}
