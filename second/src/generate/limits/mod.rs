//! Files at the limits of document 01: depth 128, 64 members, 10
//! comparisons, 32,768 bytes, 16 procedures; files of which two refusals
//! are true, so that their order tells; and files at and beyond the limits
//! that request [6] lets a caller set.

mod chains;
mod deep;
mod loops;
mod many;
mod procedures;

use self::deep::{deep_command, deep_evidence, deep_expression};
use self::many::{many_comparisons, many_members};
use super::mutate::{any_word, mend};
use super::prng::Prng;
use crate::layout::settings::{Settings, HIGHEST, STANDARD};
use crate::layout::words::{bytes_of, pack};

/// A file near one of the check's limits, on either side.
pub fn limit(rng: &mut Prng) -> Vec<u8> {
    match rng.below(15) {
        13 | 14 => chains::chains(rng, STANDARD),
        8 => loops::loops(rng),
        9 => procedures::nest(rng),
        10 | 11 => procedures::calls(rng),
        12 => procedures::tables(rng),
        0 => deep_expression(rng, STANDARD),
        1 => deep_command(rng, STANDARD),
        2 => deep_evidence(rng, STANDARD),
        3 => many_members(rng, STANDARD),
        4 | 5 => many_comparisons(rng, STANDARD),
        6 => long_file(rng),
        _ => small_errors(rng),
    }
}

/// A number above `low`, up to `high`, often these ends.
fn above(rng: &mut Prng, low: u64, high: u64) -> u64 {
    match rng.below(4) {
        0 => low + 1,
        1 => high,
        _ => low + 1 + rng.below((high - low) as usize) as u64,
    }
}

/// A file near limits that are set above the old ones, on either side.
pub fn beyond(rng: &mut Prng) -> Vec<u8> {
    let most = Settings {
        comparisons: above(rng, STANDARD.comparisons, HIGHEST.comparisons),
        depth: above(rng, STANDARD.depth, HIGHEST.depth),
        members: above(rng, STANDARD.members, HIGHEST.members),
    };
    match rng.below(9) {
        0 => deep_expression(rng, most),
        1 => deep_command(rng, most),
        2 => deep_evidence(rng, most),
        3 | 4 => many_members(rng, most),
        5..=7 => many_comparisons(rng, most),
        _ => chains::chains(rng, most),
    }
}

/// 8,191, 8,192 or 8,193 words (32,768 bytes and one word less or more): a
/// long chain of commands, sets empty.
fn long_file(rng: &mut Prng) -> Vec<u8> {
    let wanted = 8_191 + rng.below(3);
    let mut words = vec![0];
    // Command words: wanted less word 0, two sets and the evidence word.
    balanced(rng, wanted - 4, &mut words);
    words.extend([pack(32, 0), pack(32, 0), pack(33, 10)]);
    if rng.once_in(4) {
        let at = 1 + rng.below(words.len() - 1);
        words[at] = any_word(rng);
    }
    mend(&mut words);
    let mut bytes = bytes_of(&words);
    if rng.once_in(6) {
        bytes.truncate(bytes.len() - 1 - rng.below(3));
    }
    bytes
}

/// A command of exactly so many words (1 or more), not deep.
fn balanced(rng: &mut Prng, words: usize, out: &mut Vec<u32>) {
    match words {
        1 => out.push(pack(24, 0)),
        2 => out.extend([pack(27, rng.below(32) as u32), pack(1, rng.below(9) as u32)]),
        n => {
            out.push(pack(25, 0));
            let half = (n - 1) / 2;
            balanced(rng, half, out);
            balanced(rng, n - 1 - half, out);
        }
    }
}

/// The first table row with something wrong at word 0 or at the end.
fn small_errors(rng: &mut Prng) -> Vec<u8> {
    let mut words = vec![pack(63, 5), pack(24, 0), pack(32, 0), pack(32, 0), pack(33, 1)];
    match rng.below(5) {
        0 => words[0] = pack(63, rng.below(8) as u32),
        1 => words[0] = pack(rng.below(64) as u32, 5),
        2 => {
            words.truncate(1 + rng.below(5));
            mend(&mut words);
        }
        3 => {
            words.push(any_word(rng));
            mend(&mut words);
        }
        _ => {
            let at = 1 + rng.below(4);
            words[at] = any_word(rng);
        }
    }
    let mut bytes = bytes_of(&words);
    if rng.once_in(4) {
        let keep = rng.below(bytes.len() + 1);
        bytes.truncate(keep);
    }
    bytes
}
