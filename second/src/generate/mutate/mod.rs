//! Mutations of a file: words changed, put in, taken out, swapped, bits
//! flipped, expressions exchanged, true put in and taken out, procedures
//! changed; the word count mended or not.

mod procedures;

use self::procedures::change_procedures;
use crate::generate::prng::Prng;
use crate::layout::settings::HIGHEST;
use crate::layout::words::{bytes_of, pack, take_apart, words_of, PAYLOAD_BITS};

/// One to three mutations.
pub fn mutate(rng: &mut Prng, bytes: &[u8]) -> Vec<u8> {
    let Ok(mut words) = words_of(bytes) else { return bytes.to_vec() };
    let times = [1, 1, 1, 2, 3][rng.below(5)];
    for _ in 0..times {
        mutate_once(rng, &mut words);
    }
    if words.is_empty() || !rng.once_in(20) {
        mend(&mut words);
    }
    let mut bytes = bytes_of(&words);
    // Rarely no multiple of 4 any more.
    if rng.once_in(200) {
        let cut = 1 + rng.below(3);
        bytes.truncate(bytes.len().saturating_sub(cut));
    }
    bytes
}

/// Word 0 says how many words there are.
pub fn mend(words: &mut [u32]) {
    let n = words.len() as u32;
    if let Some(first) = words.first_mut() {
        *first = pack(63, n);
    }
}

fn mutate_once(rng: &mut Prng, words: &mut Vec<u32>) {
    if words.len() < 2 {
        words.push(any_word(rng));
        return;
    }
    let at = 1 + rng.below(words.len() - 1);
    if take_apart(1, words[1]).kind == 62 && rng.once_in(5) {
        return change_procedures(rng, words);
    }
    match rng.below(26) {
        0 => words[at] = any_word(rng),
        1 => words.insert(at, any_word(rng)),
        2 => {
            words.remove(at);
        }
        3 => {
            let other = 1 + rng.below(words.len() - 1);
            words.swap(at, other);
        }
        4 => words[at] ^= 1 << rng.below(PAYLOAD_BITS as usize),
        5 => words[at] ^= 1 << rng.below(32),
        6 => {
            let other = 1 + rng.below(words.len() - 1);
            words[at] = words[other];
        }
        // A small change of the payload: the next rule, scalar, operator.
        7 | 8 => {
            let word = take_apart(at, words[at]);
            let by = *rng.pick(&[1, 2, u32::MAX, u32::MAX - 1]);
            words[at] = pack(word.kind, word.payload.wrapping_add(by));
        }
        9..=16 => exchange(rng, words),
        17..=19 => change_members(rng, words),
        20 => change_counter(rng, words),
        // A rule of another number that carries and has as much.
        21 | 22 => change_rule(rng, words),
        23 | 24 => change_true(rng, words),
        // A run of words twice.
        _ => {
            let end = (at + 1 + rng.below(4)).min(words.len());
            let some = words[at..end].to_vec();
            words.splice(at..at, some);
        }
    }
}

/// Another q or m of some `for`, or another scalar of some assignment.
fn change_counter(rng: &mut Prng, words: &mut [u32]) {
    let start = rng.below(words.len());
    for i in 0..words.len() {
        let at = (start + i) % words.len();
        let word = take_apart(at, words[at]);
        let payload = match word.kind {
            27 => rng.below(6) as u32,
            31 if rng.once_in(2) => word.payload / 32 * 32 + rng.below(6) as u32,
            31 => word.payload % 32 + 32 * rng.below(6) as u32,
            _ => continue,
        };
        words[at] = pack(word.kind, payload);
        return;
    }
}

/// Another rule for some evidence word, so that the file can still be read.
fn change_rule(rng: &mut Prng, words: &mut [u32]) {
    let start = rng.below(words.len());
    for i in 0..words.len() {
        let at = (start + i) % words.len();
        let word = take_apart(at, words[at]);
        let alike: &[u32] = match (word.kind, word.payload) {
            (33, 1 | 3 | 4 | 5 | 10 | 31) => &[1, 3, 4, 5, 10, 31],
            (34, 13 | 14 | 15 | 18 | 19) => &[13, 14, 15, 18, 19],
            (35, 22 | 24 | 25 | 26 | 27 | 29) => &[22, 24, 25, 26, 27, 29],
            (35, 21 | 28) => &[21, 28],
            _ => continue,
        };
        words[at] = pack(word.kind, *rng.pick(alike));
        return;
    }
}

/// "true and" or "and true" put to some boolean, or taken from it (request [2]).
fn change_true(rng: &mut Prng, words: &mut Vec<u32>) {
    let start = rng.below(words.len());
    let (and, truth) = (pack(10, 0), pack(9, 1));
    let put = rng.once_in(2);
    for i in 0..words.len() {
        let at = (start + i) % words.len();
        let boolean = class_and_parts(words[at]).is_some_and(|(class, _)| class == 2);
        let Some(end) = tree_end(words, at).filter(|_| boolean) else { continue };
        if put && rng.once_in(2) {
            words.splice(at..at, [and, truth]);
        } else if put {
            words.insert(end, truth);
            words.insert(at, and);
        } else if words[at] == and && words[at + 1] == truth {
            words.drain(at..at + 2);
        } else if words[at] == and && words[end - 1] == truth && tree_end(words, at + 1) == Some(end - 1) {
            words.remove(end - 1);
            words.remove(at);
        } else {
            continue;
        }
        return;
    }
}

/// A word of a kind that the layout knows, mostly.
pub fn any_word(rng: &mut Prng) -> u32 {
    if rng.once_in(20) {
        return rng.next() as u32;
    }
    let kinds = [
        1, 2, 3, 4, 8, 9, 10, 11, 12, 16, 17, 18, 24, 25, 26, 27, 28, 29, 30, 31, 32, 33, 34, 35, 38, 62, 63,
    ];
    let kind = *rng.pick(&kinds);
    let payload = match kind {
        1 => rng.below(4),
        2 | 16 | 27 | 28 => rng.below(4),
        3 | 8 => rng.below(3),
        9 => rng.below(2),
        31 => rng.below(4) + 32 * rng.below(4),
        32 => rng.below(3),
        33 => *rng.pick(&[1, 2, 3, 4, 5, 6, 7, 8, 9, 10, 11, 12, 13, 14, 31]),
        34 => 13 + rng.below(7),
        35 => *rng.pick(&[20, 21, 22, 23, 24, 25, 26, 27, 28, 29, 30, 32]),
        38 => rng.below(3),
        62 => rng.below(3),
        _ => 0,
    };
    let payload = payload as u32;
    if rng.once_in(20) {
        return pack(kind, payload + *rng.pick(&[1, 31, 32, 64, 65]));
    }
    pack(kind, payload)
}

/// The class of a word (what may stand in its place) and the number of parts
/// that follow it, for kinds and payloads that the layout knows.
pub fn class_and_parts(word: u32) -> Option<(u32, usize)> {
    let word = take_apart(0, word);
    match (word.kind, word.payload) {
        (1 | 2, _) => Some((1, 0)),
        (3 | 4, _) => Some((1, 2)),
        (8, _) | (10 | 11, _) => Some((2, 2)),
        (9, _) => Some((2, 0)),
        (12, _) => Some((2, 1)),
        (16 | 17, _) => Some((3, 0)),
        (18, _) => Some((3, 3)),
        (24 | 38, _) => Some((4, 0)),
        (26 | 27 | 28 | 31, _) => Some((4, 1)),
        (25 | 30, _) => Some((4, 2)),
        (29, _) => Some((4, 3)),
        (32, members) if u64::from(members) <= HIGHEST.members + 1 => Some((5, 2 * members as usize)),
        (33, 1 | 3 | 4 | 5 | 10 | 31) => Some((6, 0)),
        (33, 11 | 13) => Some((6, 1)),
        (33, 14) => Some((6, 2)),
        (33, 2 | 7 | 8) => Some((6, 3)),
        (33, 6 | 9 | 12) => Some((6, 6)),
        (34, 16) => Some((7, 6)),
        (34, 17) => Some((7, 5)),
        (34, 13..=19) => Some((7, 0)),
        (35, 20) => Some((8, 4)),
        (35, 32) => Some((8, 1)),
        (35, 21 | 28 | 30) => Some((8, 2)),
        (35, 23) => Some((8, 3)),
        (35, 22..=29) => Some((8, 0)),
        _ => None,
    }
}

/// One past the end of the tree at a place, if there is one.
fn tree_end(words: &[u32], at: usize) -> Option<usize> {
    let (_, parts) = class_and_parts(*words.get(at)?)?;
    let mut end = at + 1;
    for _ in 0..parts {
        end = tree_end(words, end)?;
    }
    Some(end)
}

/// One tree replaced by another of its class from elsewhere in the file.
fn exchange(rng: &mut Prng, words: &mut Vec<u32>) {
    for _ in 0..60 {
        let at = 1 + rng.below(words.len() - 1);
        let from = 1 + rng.below(words.len() - 1);
        let (Some((class, _)), Some((other, _))) =
            (class_and_parts(words[at]), class_and_parts(words[from]))
        else {
            continue;
        };
        if class != other || words[at] == words[from] && rng.once_in(2) {
            continue;
        }
        let (Some(end), Some(from_end)) = (tree_end(words, at), tree_end(words, from)) else {
            continue;
        };
        let copy = words[from..from_end].to_vec();
        words.splice(at..end, copy);
        return;
    }
}

/// A member of some set put in, taken out or moved.
fn change_members(rng: &mut Prng, words: &mut Vec<u32>) {
    let mut sets = Vec::new();
    for place in 1..words.len() {
        if take_apart(place, words[place]).kind == 32 {
            sets.push(place);
        }
    }
    if sets.is_empty() {
        return;
    }
    let at = *rng.pick(&sets);
    let from = *rng.pick(&sets);
    let (Some(members), Some(others)) = (members_of(words, at), members_of(words, from)) else {
        return;
    };
    let mut new: Vec<Vec<u32>> = members.iter().map(|(a, b)| words[*a..*b].to_vec()).collect();
    match rng.below(3) {
        0 if !others.is_empty() => {
            let (a, b) = *rng.pick(&others);
            let place = rng.below(new.len() + 1);
            new.insert(place, words[a..b].to_vec());
        }
        1 if !new.is_empty() => {
            let place = rng.below(new.len());
            new.remove(place);
        }
        _ => rng.shuffle(&mut new),
    }
    let Some(end) = tree_end(words, at) else { return };
    let mut whole = vec![pack(32, new.len() as u32)];
    whole.extend(new.concat());
    words.splice(at..end, whole);
}

/// Start and end of each member of the set at a place.
fn members_of(words: &[u32], at: usize) -> Option<Vec<(usize, usize)>> {
    let count = take_apart(at, words[at]).payload;
    let mut out = Vec::new();
    let mut start = at + 1;
    for _ in 0..count.min(64) {
        let end = tree_end(words, tree_end(words, start)?)?;
        out.push((start, end));
        start = end;
    }
    Some(out)
}
