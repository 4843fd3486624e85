//! Of a file that is accepted, one that is read at the same cost and refused with 8 at one of its first evidence words.

use second::layout::settings::STANDARD;
use second::layout::syntax::{File, Set};
use second::layout::words::{bytes_of, pack, take_apart, words_of, Refusal, Word};
use second::layout::write;
use second::naive::judge::{check, Answer};
use second::naive::read::read;

/// How many words are tried from the first evidence word on: some rules ask at their own word for nothing, or for nothing that one other
/// word breaks.
const FURTHER: usize = 64;

/// Other payloads of a word that has the same parts with them: of a constant, an identifier, a truth value and a rule (the rules that have
/// other parts are not read).
fn others(word: Word) -> Vec<u32> {
    let Word { kind, payload, .. } = word;
    match kind {
        1 => vec![payload ^ 1],
        2 | 16 => vec![(payload + 1) % 32],
        9 => vec![1 - payload],
        33..=35 => (1..=32).filter(|rule| *rule != payload).collect(),
        _ => Vec::new(),
    }
}

fn count_of(set: &Set) -> usize {
    let mut words = Vec::new();
    write::set(set, &mut words);
    words.len()
}

/// The first words of the contract that is judged first, and of its evidence.
fn first_contract(file: &File) -> (usize, usize) {
    let (pre, post, evidence) = match file.procedures.first() {
        Some(procedure) => (&procedure.pre, &procedure.post, &procedure.evidence),
        None => (&file.pre, &file.post, &file.evidence),
    };
    (evidence.place - count_of(pre) - count_of(post), evidence.place)
}

/// The file with one other word, in all the ways that `others` says.
fn with_another_at(words: &[u32], at: usize) -> Vec<Vec<u8>> {
    let word = take_apart(at, words[at]);
    let with = |payload: u32| {
        let mut words = words.to_vec();
        words[at] = pack(word.kind, payload);
        bytes_of(&words)
    };
    others(word).into_iter().map(with).collect()
}

/// Where a file is refused with 8.
fn place_of_8(bytes: &[u8]) -> Option<usize> {
    match check(bytes) {
        Answer::Refused(Refusal { number: 8, place }) => Some(place),
        _ => None,
    }
}

/// The file with that word changed for which it is refused with 8 at the first place, and the line that is due. If there are more, that of
/// the evidence goes before that of the contract: another rule is refused at once.
pub fn refused_early(bytes: &[u8]) -> (Vec<u8>, String) {
    let words = words_of(bytes).expect("a file");
    let (from, evidence) = first_contract(&read(bytes, STANDARD).expect("a file that is read"));
    let places = (evidence..words.len().min(evidence + FURTHER)).chain(from..evidence);
    let changed = places.flat_map(|at| with_another_at(&words, at));
    let refused = changed.filter_map(|bytes| Some((place_of_8(&bytes)?, bytes)));
    let (place, bytes) = refused.min_by_key(|(place, _)| *place).expect("a word for which the file is refused with 8");
    (bytes, format!("refused 8 {place}"))
}
