//! Words and bytes that are no skip, assert or assignment of a length, each but for one thing.

use super::exact;
use crate::generate::mutate::any_word;
use crate::generate::parts::Pool;
use crate::generate::prng::Prng;
use crate::layout::syntax::{Command, Form};
use crate::layout::words::{bytes_of, pack};
use crate::layout::write;
use crate::naive::masks::words_of_command;

fn simple(rng: &mut Prng, pool: &Pool, words: usize) -> Vec<u32> {
    words_of_command(&exact::simple(rng, pool, words))
}

/// Two simple commands with these words between them, all together of so many words, if that many there can be.
fn around(rng: &mut Prng, pool: &Pool, between: &[u32], words: usize) -> Option<Vec<u32>> {
    let rest = words.checked_sub(between.len() + 1).filter(|rest| *rest > 0)?;
    let first = 1 + rng.below(rest);
    Some([simple(rng, pool, first), between.to_vec(), simple(rng, pool, rest + 1 - first)].concat())
}

/// `24:0 25:0 24:0` and the like: in the place of a sequence's first part, or of what an `if` has before `else`, the file is still one
/// that can be read.
pub fn two_halves(rng: &mut Prng, pool: &Pool, words: usize) -> Option<Vec<u32>> {
    around(rng, pool, &[pack(25, 0)], words)
}

/// A whole command of another form.
fn other_command(rng: &mut Prng, pool: &Pool, words: usize) -> Option<Vec<u32>> {
    let behind = |first: Vec<u32>, rest: Option<Vec<u32>>| rest.map(|rest| [first, rest].concat());
    match rng.below(6) {
        _ if words == 1 => Some(vec![pack(38, rng.below(2) as u32)]),
        0 | 1 if words > 2 => behind(vec![pack(25, 0)], around(rng, pool, &[], words - 1)),
        2 if words > 3 => behind(vec![pack(29, 0), pack(9, 1)], around(rng, pool, &[], words - 2)),
        3 if words > 2 => behind(vec![pack(30, 0), pack(9, 0)], Some(simple(rng, pool, words - 2))),
        _ => behind(vec![pack(31, 32 * 30 + 31)], Some(simple(rng, pool, words - 1))),
    }
}

/// Something else than a command.
fn no_command(rng: &mut Prng, pool: &Pool, words: usize) -> Vec<u32> {
    let mut out = Vec::new();
    match rng.below(4) {
        0 if exact::arith_fits(words) => write::arith(&exact::arith(rng, pool, words), &mut out),
        1 if exact::array_fits(words) => write::array(&exact::array(rng, pool, words), &mut out),
        2 => write::boolean(&exact::boolean(rng, pool, words), &mut out),
        _ => {
            out = simple(rng, pool, words);
            out[0] =
                *rng.pick(&[pack(32, 0), pack(32, 1), pack(33, 1), pack(34, 13), pack(35, 22), pack(62, 1), pack(63, 1)]);
        }
    }
    out
}

/// A number that is no scalar's, no array's or no payload of its word.
fn wrong_payload(rng: &mut Prng, pool: &Pool, words: usize) -> Vec<u32> {
    let outside = *rng.pick(&[32, 33, 63, 64, 1 << 16, (1 << 26) - 1]);
    let wide = Pool { scalars: vec![outside], arrays: vec![outside], callable: Vec::new() };
    match rng.below(3) {
        _ if words == 1 => vec![pack(24, outside)],
        0 => words_of_command(&exact::simple(rng, &wide, words)),
        1 => match exact::assignment(rng, pool, outside, words) {
            Some(command) => words_of_command(&command),
            None => wrong_payload(rng, pool, 1),
        },
        _ => {
            let mut out = words_of_command(&exact::simple(rng, pool, words));
            out[0] += *rng.pick(&[32, 33, 1 << 25]);
            out
        }
    }
}

/// No multiple of 4, or one bit changed.
fn wrong_bytes(rng: &mut Prng, pool: &Pool, words: usize) -> Vec<u8> {
    let mut bytes = bytes_of(&simple(rng, pool, words));
    match rng.below(3) {
        0 => bytes.truncate(bytes.len() - 1 - rng.below(3)),
        1 => bytes.extend(vec![0; 1 + rng.below(3)]),
        _ => {
            let at = rng.below(bytes.len());
            bytes[at] ^= 1 << rng.below(8);
        }
    }
    bytes
}

/// What is wrong for a place with a simple command of so many words; by chance some of it is right.
pub fn wrong(rng: &mut Prng, pool: &Pool, old: &Command, words: usize) -> Vec<u8> {
    let more = words + 1 + rng.below(3);
    let made = match rng.below(15) {
        0 | 12 | 13 => other_command(rng, pool, words).unwrap_or_default(),
        1 | 2 => no_command(rng, pool, words),
        3 => (0..words).map(|_| any_word(rng)).collect(),
        4 => (0..words).map(|_| rng.next() as u32).collect(),
        5 => match words {
            1 => Vec::new(),
            _ => {
                let fewer = 1 + rng.below(words - 1);
                simple(rng, pool, fewer)
            }
        },
        6 => simple(rng, pool, more),
        7 => around(rng, pool, &[], words).unwrap_or_default(),
        // not whole
        8 => simple(rng, pool, more)[..words].to_vec(),
        9 => wrong_payload(rng, pool, words),
        10 => repeated(old, words),
        11 => two_halves(rng, pool, words).unwrap_or_default(),
        _ => return wrong_bytes(rng, pool, words),
    };
    bytes_of(&made)
}

/// A skip twice; of another command its words, the first of them last.
fn repeated(old: &Command, words: usize) -> Vec<u32> {
    let own = words_of_command(old);
    match old.form {
        Form::Skip => [own.clone(), own].concat(),
        _ => own[1..].iter().copied().chain([own[0]]).take(words).collect(),
    }
}
