//! The kinds of new commands that the workbench call is measured with.

use second::layout::settings::STANDARD;
use second::layout::syntax::*;
use second::layout::words::{bytes_of, take_apart};
use second::naive::commands::{all_commands, with_inner};
use second::naive::masks::{self, is_simple, words_of_command};

pub const KINDS_OF_PUTS: usize = 5;
pub const NAMES: [&str; KINDS_OF_PUTS] = ["Itself", "Another scalar", "A counter", "Deeper", "In a procedure"];
pub const ITSELF: usize = 0;
pub const OTHER_SCALAR: usize = 1;

/// A place of a file, and a command's words for it.
pub struct Put {
    pub place: usize,
    pub new: Vec<u32>,
}

fn put(old: &Command, new: &Command) -> Put {
    Put { place: old.place, new: words_of_command(new) }
}

/// A new command of each kind, which is put; none where no command of at most a sixteenth of the file's words gives one.
pub fn puts(file: &File, bytes: &[u8]) -> [Option<Put>; KINDS_OF_PUTS] {
    let all = short(all_commands(file), bytes.len() / 4);
    let bodies = file.procedures.iter().flat_map(|procedure| with_inner(&procedure.command));
    let in_procedures = short(bodies.collect(), bytes.len() / 4);
    let first = |commands: &[&Command], new: &dyn Fn(&Command) -> Option<Put>| {
        commands.iter().filter_map(|command| new(command)).find(|put| is_put(bytes, put))
    };
    [
        first(&all, &|command| Some(put(command, command))),
        first(&all, &|command| to_another_scalar(command, |y| !counts_with(file, y))),
        first(&all, &|command| to_another_scalar(command, |y| counts_with(file, y))),
        first(&all, &deeper),
        first(&in_procedures, &|command| to_another_scalar(command, |y| !counts_with(file, y))),
    ]
}

/// Whether the second implementation puts it.
fn is_put(bytes: &[u8], put: &Put) -> bool {
    let mut masks = vec![0; bytes.len() / 4];
    masks::put(&mut bytes.to_vec(), &mut masks, put.place, &bytes_of(&put.new), STANDARD).is_ok()
}

/// Those of some commands that the workbench call takes and that have at most a sixteenth of so many words.
fn short(all: Vec<&Command>, words: usize) -> Vec<&Command> {
    all.into_iter().filter(|command| is_simple(command) && 16 * words_of_command(command).len() <= words).collect()
}

/// For an assignment to a scalar: to the first other one of these.
fn to_another_scalar(old: &Command, of: impl Fn(u32) -> bool) -> Option<Put> {
    let Form::AssignScalar(x, right) = &old.form else { return None };
    let other = (0..32).find(|y| y != x && of(*y))?;
    Some(put(old, &command(Form::AssignScalar(other, right.clone()))))
}

/// Whether a `for` of the file has it as its q or its m.
fn counts_with(file: &File, x: u32) -> bool {
    all_commands(file).iter().any(|command| matches!(command.form, Form::For(q, m, _) if q == x || m == x))
}

/// An assert of as many words that takes more levels, each word being below the one before.
fn deeper(old: &Command) -> Option<Put> {
    let words = words_of_command(old);
    if levels(&mut words.iter()) == words.len() {
        return None;
    }
    let nots = (2..words.len()).fold(always(), |inner, _| not(inner));
    Some(put(old, &command(Form::Assert(nots))))
}

/// How many levels a simple command or an expression takes, from its words.
fn levels<'a>(words: &mut impl Iterator<Item = &'a u32>) -> usize {
    let word = words.next().expect("a word");
    let parts = match take_apart(0, *word).kind {
        12 | 26..=28 => 1,
        3 | 4 | 8 | 10 | 11 => 2,
        18 => 3,
        _ => 0,
    };
    1 + (0..parts).map(|_| levels(words)).max().unwrap_or(0)
}
