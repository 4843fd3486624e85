//! Generate: the seeded generator of accepted files, the same with true put in and taken out, mutations, nearly readable files, files
//! at the limits and beyond them, settings for files, runs, and replacements of commands.
//!
//! Uses: layout, naive, tool.
//! For: the programs that compare, the tests, and rows; any file can be made again by its seed and number.

pub mod derive;
pub mod limits;
pub mod mutate;
pub mod nearly;
pub mod parts;
pub mod plain;
pub mod prng;
pub mod procedures;
pub mod prove;
pub mod put_cases;
pub mod run_cases;
pub mod settings;

use self::derive::Maker;
use self::limits::{beyond, limit};
use self::mutate::mutate;
use self::nearly::nearly;
use self::parts::Pool;
use self::prng::Prng;
use crate::layout::words::{bytes_of, take_apart, words_of, MOST_BYTES};
use crate::layout::write::file_words_with;
use crate::naive::judge::{check, Answer};

/// An accepted file, made backwards. Tries until one fits the layout's
/// limits; the judge must accept each that does.
pub fn accepted(rng: &mut Prng) -> Vec<u8> {
    loop {
        let Some(bytes) = backwards(rng, 0) else { continue };
        match check(&bytes) {
            Answer::Accepted(_) => return bytes,
            // Too deep, or too many members in a set that is carried.
            Answer::Refused(r) if r.number == 4 || r.number == 5 => continue,
            Answer::Refused(r) => {
                panic!("made by the rules, but {r:?}: {}", crate::tool::rows::hex_of(&bytes))
            }
        }
    }
}

/// A file made backwards in which a side condition or two are broken (some
/// by chance hold all the same).
pub fn near_miss(rng: &mut Prng) -> Vec<u8> {
    loop {
        let slips = 1 + rng.below(2);
        if let Some(bytes) = backwards(rng, slips) {
            return bytes;
        }
    }
}

/// One file in three has procedures.
fn backwards(rng: &mut Prng, slips: usize) -> Option<Vec<u8>> {
    let mut pool = Pool::new(rng);
    let mut left = slips;
    let procedures = if rng.once_in(3) { procedures::table(rng, &mut pool, &mut left)? } else { Vec::new() };
    let size = rng.below(5);
    let command = parts::random_command(rng, &pool, size, &[]);
    let post = match procedures.last() {
        Some(last) if rng.once_in(4) => last.post.clone(),
        _ => parts::set(rng, &pool),
    };
    let mut maker = Maker { rng, pool, procedures: &procedures, fuel: 400, slips: left };
    let (pre, evidence) = maker.flow(&command, &post, 3)?;
    if slips > 0 && maker.slips == slips {
        return None;
    }
    let words = file_words_with(&procedures, &command, &pre, &post, &evidence);
    (words.len() * 4 <= MOST_BYTES).then(|| bytes_of(&words))
}

/// The rules of kinds 33 to 35.
pub const RULES: [(&str, &[usize]); 3] = [
    ("flow", &[1, 2, 3, 4, 5, 6, 7, 8, 9, 10, 11, 12, 13, 14, 31]),
    ("set", &[13, 14, 15, 16, 17, 18, 19]),
    ("precondition", &[20, 21, 22, 23, 24, 25, 26, 27, 28, 29, 30, 32]),
];

/// How often each rule occurs in files: `[kind − 33][rule]`.
pub type RuleCounts = [[u64; 33]; 3];

/// Counts the rules of a file that can be read. Kinds 33 to 35 stand nowhere but in evidence.
pub fn count_rules(bytes: &[u8], counts: &mut RuleCounts) {
    for (place, word) in words_of(bytes).unwrap_or_default().into_iter().enumerate() {
        let word = take_apart(place, word);
        if (33..=35).contains(&word.kind) {
            counts[word.kind as usize - 33][word.payload as usize] += 1;
        }
    }
}

/// The kinds of generated files.
#[derive(Clone, Copy, PartialEq, Eq, Debug)]
pub enum Kind {
    Accepted,
    NearMiss,
    /// Accepted, with true put into antecedents and taken out of them.
    Tidied,
    /// The same where words count.
    ByWords,
    Mutated,
    Nearly,
    Limit,
    /// At limits that are set above the old ones, some of them mutated.
    Beyond,
}

/// File number `i` of a seed, alone: any one can be made again.
pub fn mixed(seed: u64, i: u64) -> (Kind, Vec<u8>) {
    let mut rng = file_prng(seed, i);
    if rng.once_in(13) {
        let file = beyond(&mut rng);
        let file = if rng.once_in(4) { mutate(&mut rng, &file) } else { file };
        return (Kind::Beyond, file);
    }
    any_file(&mut rng)
}

/// A file of any kind but those beyond the old limits.
fn any_file(rng: &mut Prng) -> (Kind, Vec<u8>) {
    match rng.below(12) {
        0 | 1 => (Kind::Accepted, accepted(rng)),
        2 | 3 => (Kind::NearMiss, near_miss(rng)),
        4..=6 => {
            let base = match rng.below(8) {
                0 => limit(rng),
                1 => nearly(rng),
                2 => plain::tidied(rng),
                _ => accepted(rng),
            };
            (Kind::Mutated, mutate(rng, &base))
        }
        9 => (Kind::Tidied, plain::tidied(rng)),
        10 => (Kind::ByWords, plain::by_words(rng)),
        7 | 8 => (Kind::Nearly, nearly(rng)),
        _ => (Kind::Limit, limit(rng)),
    }
}

/// The numbers for file `i` of a seed.
pub fn file_prng(seed: u64, i: u64) -> Prng {
    let mut rng = Prng::new(seed ^ i.wrapping_mul(0xd6e8_feb8_6659_fd93));
    rng.next();
    rng
}
