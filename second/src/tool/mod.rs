//! Tool: what the programs share: arguments, files, standard input and output, and how they end. One that can't do its work
//! writes one line, `NAME: what is wrong`, on standard error, and its exit status is 2.
//!
//! Uses: layout, naive, fast.
//! For: the programs of `src/bin`; rows of tests as text (`rows`); and the calls that read a file, of any version (`calls`).

pub mod calls;
pub mod rows;

use crate::layout::settings::{Settings, STANDARD};
use crate::layout::words::MOST_BYTES;
use std::io::{self, Read, Write};
use std::panic::PanicHookInfo;
use std::process::exit;
use std::sync::Mutex;

/// Why a program can't do its work.
#[derive(Debug)]
pub enum Fault {
    /// The arguments are not those that it takes.
    Usage,
    Said(String),
}

/// For `?` after a write to standard output.
impl From<io::Error> for Fault {
    fn from(error: io::Error) -> Fault {
        Fault::Said(format!("standard output: {error}"))
    }
}

/// For `?` after a function that says what is wrong.
impl From<String> for Fault {
    fn from(message: String) -> Fault {
        Fault::Said(message)
    }
}

/// What a program does with its arguments: it writes to standard output, and gives its exit status.
pub type Program = fn(&[String], &mut dyn Write) -> Result<u8, Fault>;

const CAN_NOT: i32 = 2;

/// Runs a program and ends the process; `usage` says which arguments it takes.
pub fn run(name: &'static str, usage: &str, program: Program) -> ! {
    std::panic::set_hook(Box::new(move |fault| end_of_panic(name, fault)));
    let mut out = io::stdout().lock();
    let done = arguments().and_then(|arguments| program(&arguments, &mut out));
    match done.and_then(|status| Ok(out.flush().map(|()| status)?)) {
        Ok(status) => exit(i32::from(status)),
        Err(Fault::Usage) => end(name, &format!("usage: {name} {usage}")),
        Err(Fault::Said(message)) => end(name, &message),
    }
}

/// Held by the thread that ends the process, so that no other writes a line too.
static ENDS: Mutex<()> = Mutex::new(());

/// One line, whatever a file's name has in it. A closed standard error is no reason for another fault.
fn end(name: &str, message: &str) -> ! {
    let _held = ENDS.lock();
    let plain: String = message.chars().map(|c| if c.is_control() { '?' } else { c }).collect();
    let _ = writeln!(io::stderr(), "{name}: {plain}");
    exit(CAN_NOT)
}

/// A fault that a program doesn't foresee.
fn end_of_panic(name: &str, fault: &PanicHookInfo) {
    let payload = fault.payload();
    let said = payload.downcast_ref::<&str>().copied().or(payload.downcast_ref::<String>().map(String::as_str));
    let place = fault.location().map_or(String::new(), |at| format!(" ({}, line {})", at.file(), at.line()));
    end(name, &format!("{}{place}", said.unwrap_or("an unknown fault")))
}

fn arguments() -> Result<Vec<String>, Fault> {
    let texts = std::env::args_os().skip(1).map(|argument| argument.into_string());
    texts.collect::<Result<_, _>>().map_err(|_| Fault::Said("an argument is no text (UTF-8)".to_string()))
}

/// A number among the arguments.
pub fn number(text: &str) -> Result<u64, Fault> {
    text.parse().map_err(|_| Fault::Said(format!("`{text}` is no number from 0 to {}", u64::MAX)))
}

/// How the settings of request [6] are given, before the other arguments.
pub const SETTINGS: &str = "[--comparisons N] [--depth N] [--members N]";

/// The settings among the arguments, the old ones where none are given, and the arguments behind them. One outside its range is no fault
/// here: it is refusal 19.
pub fn settings(arguments: &[String]) -> Result<(Settings, &[String]), Fault> {
    let (mut settings, mut rest) = (STANDARD, arguments);
    while let [option, others @ ..] = rest {
        let setting = match option.as_str() {
            "--comparisons" => &mut settings.comparisons,
            "--depth" => &mut settings.depth,
            "--members" => &mut settings.members,
            _ => break,
        };
        let [value, others @ ..] = others else { return Err(Fault::Usage) };
        *setting = number(value)?;
        rest = others;
    }
    Ok((settings, rest))
}

/// Up to N numbers, and these for those that are not given.
pub fn numbers<const N: usize>(arguments: &[String], others: [u64; N]) -> Result<[u64; N], Fault> {
    if arguments.len() > N {
        return Err(Fault::Usage);
    }
    let mut all = others;
    for (one, text) in all.iter_mut().zip(arguments) {
        *one = number(text)?;
    }
    Ok(all)
}

/// The arguments without the last one if it is this word, and whether it is.
pub fn numbers_and<'a>(word: &str, arguments: &'a [String]) -> (&'a [String], bool) {
    match arguments {
        [numbers @ .., last] if last == word => (numbers, true),
        _ => (arguments, false),
    }
}

/// More than any file or text of a file needs; a device without an end is given up.
const MOST_READ: u64 = 1 << 24;

pub fn read_file(path: &str) -> Result<Vec<u8>, Fault> {
    let mut bytes = Vec::new();
    let read = std::fs::File::open(path).and_then(|file| file.take(MOST_READ + 1).read_to_end(&mut bytes));
    match read {
        Err(error) => Err(Fault::Said(format!("{path}: {error}"))),
        Ok(count) if count as u64 > MOST_READ => Err(Fault::Said(format!("{path}: more than {MOST_READ} bytes"))),
        Ok(_) => Ok(bytes),
    }
}

pub fn read_text(path: &str) -> Result<String, Fault> {
    String::from_utf8(read_file(path)?).map_err(|_| Fault::Said(format!("{path}: this is no text (UTF-8)")))
}

pub fn write_file(path: &str, bytes: &[u8]) -> Result<(), Fault> {
    std::fs::write(path, bytes).map_err(|error| Fault::Said(format!("{path}: {error}")))
}

/// The file on standard input; one byte more than the most is enough to refuse it.
pub fn read_input() -> Result<Vec<u8>, Fault> {
    // room for the longest file, so that reading takes the same for all
    let mut bytes = Vec::with_capacity(2 * MOST_BYTES);
    let read = io::stdin().lock().take(MOST_BYTES as u64 + 1).read_to_end(&mut bytes);
    read.map_err(|error| Fault::Said(format!("standard input: {error}")))?;
    Ok(bytes)
}
