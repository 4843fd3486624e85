//! Request [2]: accepted files with "true and" and "and true" put into their booleans and taken out of them, at every depth. In
//! antecedents and carried assertions this changes no answer; in consequents, in commands and in the sets of rule 17's "without"
//! the words count, and most such files are refused.

pub mod booleans;
pub mod truths;

use self::booleans::{Booleans, Stands};
use self::truths::{with_other, with_true};
use super::accepted;
use super::prng::Prng;
use crate::layout::settings::STANDARD;
use crate::layout::syntax::*;
use crate::layout::words::{bytes_of, MOST_BYTES};
use crate::layout::write::file_words_with;
use crate::naive::judge::{check, Answer};
use crate::naive::plain::plain;
use crate::naive::read::read;

/// What is done to a boolean.
type Change = fn(&mut Prng, &Bool) -> Bool;

/// Trues put in; all of them taken out; or one of these, or both.
const PLAIN: [Change; 3] = [with_true, |_, b| plain(b), either];

fn either(rng: &mut Prng, b: &Bool) -> Bool {
    match rng.below(4) {
        0 => plain(b),
        1 => with_true(rng, &plain(b)),
        2 => {
            let once = with_true(rng, b);
            with_true(rng, &once)
        }
        _ => with_true(rng, b),
    }
}

/// An accepted file with some of the booleans changed that stand so; none if they are as they were, or it is too long then.
fn changed_by(rng: &mut Prng, stands: &[Stands], change: Change) -> Option<Vec<u8>> {
    let bytes = accepted(rng);
    let mut file = read(&bytes, STANDARD).expect("accepted");
    let seldom = *rng.pick(&[1, 1, 2, 4, 12]);
    let mut one = |here: Stands, b: &mut Bool| {
        if stands.contains(&here) && rng.once_in(seldom) {
            *b = change(rng, b);
        }
    };
    Booleans { change: &mut one }.file(&mut file);
    let words = file_words_with(&file.procedures, &file.command, &file.pre, &file.post, &file.evidence);
    let new = bytes_of(&words);
    (new != bytes && new.len() <= MOST_BYTES).then_some(new)
}

/// Changed where antecedents and assertions are compared: accepted, unless it is too deep now. Tries until one is accepted.
pub fn tidied(rng: &mut Prng) -> Vec<u8> {
    loop {
        let bytes = changed(rng, &[Stands::Antecedent]);
        match check(&bytes) {
            Answer::Accepted(_) => return bytes,
            Answer::Refused(r) if r.number == 4 => continue,
            Answer::Refused(r) => panic!("plain antecedents, but {r:?}: {}", crate::tool::rows::hex_of(&bytes)),
        }
    }
}

/// Changed where words count, or in a way that is no dropping; antecedents too, in half of the files.
pub fn by_words(rng: &mut Prng) -> Vec<u8> {
    if rng.once_in(8) {
        return not_dropped(rng);
    }
    // few accepted files carry a command
    let part = match rng.below(10) {
        0..=2 => Stands::Consequent,
        3..=5 => Stands::Without,
        6..=8 => Stands::Test,
        _ => Stands::Carried,
    };
    let both = [part, Stands::Antecedent];
    let some = if rng.once_in(2) { &both[..] } else { &both[..1] };
    changed(rng, some)
}

/// True put into some of the booleans that stand so, or taken out.
pub fn changed(rng: &mut Prng, stands: &[Stands]) -> Vec<u8> {
    loop {
        let change = *rng.pick(&PLAIN);
        if let Some(bytes) = changed_by(rng, stands, change) {
            return bytes;
        }
    }
}

/// Antecedents changed in another way.
pub fn not_dropped(rng: &mut Prng) -> Vec<u8> {
    loop {
        if let Some(bytes) = changed_by(rng, &[Stands::Antecedent], with_other) {
            return bytes;
        }
    }
}
