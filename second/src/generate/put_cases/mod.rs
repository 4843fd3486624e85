//! Replacements for the workbench call of request [5], right and wrong ones, at every kind of place; with numbers lent that are no masks,
//! so that one that was not stored is seen. The check with masks is tried on the same files.

mod exact;
mod programs;
mod wrong;

use super::any_file;
use super::limits::{beyond, limit};
use super::parts::Pool;
use super::prng::Prng;
use super::settings::often_standard;
use crate::layout::settings::{Settings, HIGHEST, STANDARD};
use crate::layout::syntax::*;
use crate::layout::words::bytes_of;
use crate::naive::commands::{all_commands, with_inner};
use crate::naive::masks::{is_simple, words_of_command};
use crate::naive::modified::{reached, used_by};
use crate::naive::read::read;

/// A file, the numbers lent for masks, a place and the bytes of a new command, and settings.
#[derive(Clone, Debug)]
pub struct PutCase {
    pub bytes: Vec<u8>,
    pub lent: Vec<u64>,
    pub place: usize,
    pub new: Vec<u8>,
    pub settings: Settings,
}

pub fn put_case(rng: &mut Prng) -> PutCase {
    let deep = rng.once_in(10);
    let most = any_depth(rng);
    let bytes = match rng.below(18) {
        _ if deep => programs::deep(rng, most.depth as usize),
        0..=2 => any_file(rng).1,
        3 if rng.once_in(2) => beyond(rng),
        3 => limit(rng),
        _ => programs::program(rng),
    };
    let settings = if deep { most } else { often_standard(rng, &bytes) };
    let lent = lent(rng, bytes.len() / 4);
    let (place, new) = match read(&bytes, settings) {
        Ok(file) if deep && rng.once_in(2) => deepest(rng, &simple_commands(&file)),
        Ok(file) => replacement(rng, &file, bytes.len() / 4),
        Err(_) => (rng.below(4), bytes_of(&words_of_command(&skip()))),
    };
    PutCase { bytes, lent, place, new, settings }
}

/// The old settings, or those with another depth.
fn any_depth(rng: &mut Prng) -> Settings {
    let depth = match rng.below(6) {
        0 => HIGHEST.depth,
        1 => 4 + rng.below(253) as u64,
        _ => STANDARD.depth,
    };
    Settings { depth, ..STANDARD }
}

/// Enough numbers for so many words or too few, none of them likely to be a mask.
fn lent(rng: &mut Prng, words: usize) -> Vec<u64> {
    let count = match rng.below(24) {
        0 => 0,
        1 | 2 => words.saturating_sub(1),
        3 => rng.below(words + 1),
        4..=9 => words,
        10 | 11 => words + 1,
        12 => words + 8_192,
        _ => words + rng.below(40),
    };
    (0..count).map(|_| rng.next()).collect()
}

/// The identifiers that new commands use: often those of the program, else any.
fn pool_of(rng: &mut Prng, file: &File) -> Pool {
    let used = used_by(&file.command, &file.procedures);
    let (mut scalars, mut arrays) = (used.all_scalars(), used.all_arrays());
    if scalars.is_empty() || rng.once_in(2) {
        scalars = (0..32).collect();
    }
    if arrays.is_empty() || rng.once_in(2) {
        arrays = (0..32).collect();
    }
    Pool { scalars, arrays, callable: Vec::new() }
}

/// Those that the workbench call takes.
fn simple_commands(file: &File) -> Vec<&Command> {
    all_commands(file).into_iter().filter(|command| is_simple(command)).collect()
}

/// Mostly one of more than a word: in the place of a skip only a skip fits.
fn pick_old<'a>(rng: &mut Prng, some: &[&'a Command]) -> &'a Command {
    let longer: Vec<&Command> = some.iter().copied().filter(|command| command.form != Form::Skip).collect();
    let from = if longer.is_empty() || rng.once_in(10) { some } else { &longer };
    *rng.pick(from)
}

/// A place and the bytes for it, for a file that is read and has so many words.
fn replacement(rng: &mut Prng, file: &File, words: usize) -> (usize, Vec<u8>) {
    let pool = pool_of(rng, file);
    let (commands, some) = (all_commands(file), simple_commands(file));
    if some.is_empty() || rng.once_in(10) {
        return other_place(rng, &pool, &commands, words);
    }
    let old = pick_old(rng, &some);
    let count = words_of_command(old).len();
    let new = match rng.below(16) {
        0 | 1 => match of_a_for(rng, &pool, file) {
            Some((place, new)) => return (place, bytes_of(&words_of_command(&new))),
            None => exact::simple(rng, &pool, count),
        },
        2 => return before_another(rng, &pool, &commands).unwrap_or((old.place, Vec::new())),
        3 => old.clone(),
        4..=6 => return (old.place, wrong::wrong(rng, &pool, old, count)),
        _ => exact::simple(rng, &pool, count),
    };
    (old.place, bytes_of(&words_of_command(&new)))
}

/// Any place, mostly one where no simple command starts: 0, of another command, within one, of no command, or past the words; and a
/// command that would be right for some place.
fn other_place(rng: &mut Prng, pool: &Pool, commands: &[&Command], words: usize) -> (usize, Vec<u8>) {
    let near = rng.pick(commands);
    let place = match rng.below(8) {
        0 => 0,
        1 | 2 => 1 + rng.below(words - 1),
        3 | 4 => near.place,
        5 => words + rng.below(3),
        // the same place where the high bits are lost
        6 => near.place + *rng.pick(&[1 << 14, 1 << 16, 1 << 30, 1 << 32, 1 << 62, 1 << 63]),
        _ => *rng.pick(&[usize::MAX, usize::MAX / 4, usize::MAX / 4 + 1, 1 << 62, 1 << 63]),
    };
    let new = match rng.below(3) {
        0 => words_of_command(near),
        1 => {
            let count = words_of_command(near).len().min(40);
            words_of_command(&exact::simple(rng, pool, count))
        }
        _ => {
            let count = 1 + rng.below(3);
            words_of_command(&exact::simple(rng, pool, count))
        }
    };
    (place, bytes_of(&new))
}

/// An assignment to q or m of a `for`, half of the time in a body that it reaches through calls: refusal 7.
fn of_a_for(rng: &mut Prng, pool: &Pool, file: &File) -> Option<(usize, Command)> {
    let mut all = Vec::new();
    let own = if rng.once_in(2) { 0 } else { 1 };
    for command in all_commands(file) {
        let Form::For(q, m, body) = &command.form else { continue };
        let inner = reached(body, &file.procedures).into_iter().skip(own).flat_map(with_inner);
        all.extend(inner.filter(|old| is_simple(old)).map(|old| (old, *rng.pick(&[*q, *m]))));
    }
    if all.is_empty() {
        return None;
    }
    let (old, x) = *rng.pick(&all);
    let new = exact::assignment(rng, pool, x, words_of_command(old).len())?;
    Some((old.place, new))
}

/// A chain in the place of the longest of these commands.
fn deepest(rng: &mut Prng, some: &[&Command]) -> (usize, Vec<u8>) {
    let longest = some.iter().max_by_key(|old| words_of_command(old).len()).expect("one at least");
    let count = words_of_command(longest).len();
    let new = if count < 2 || rng.once_in(8) { skip() } else { exact::chain(count) };
    (longest.place, bytes_of(&words_of_command(&new)))
}

/// Words that are no whole command but leave the file one that can be read, if a simple command has another after it.
fn before_another(rng: &mut Prng, pool: &Pool, commands: &[&Command]) -> Option<(usize, Vec<u8>)> {
    let first = |command: &&Command| match &command.form {
        Form::Sequence(a, _) | Form::If(_, a, _) => is_simple(a).then(|| (a.place, words_of_command(a).len())),
        _ => None,
    };
    let all: Vec<(usize, usize)> = commands.iter().filter_map(first).filter(|(_, count)| *count > 2).collect();
    if all.is_empty() {
        return None;
    }
    let (place, count) = *rng.pick(&all);
    Some((place, bytes_of(&wrong::two_halves(rng, pool, count)?)))
}
