//! Mutations of a file that has a table of procedures.

use super::tree_end;
use crate::generate::prng::Prng;
use crate::layout::words::{pack, take_apart};

/// Other calls, another count, procedures exchanged, put in or taken out.
pub fn change_procedures(rng: &mut Prng, words: &mut Vec<u32>) {
    match rng.below(8) {
        0..=2 => change_call(rng, words),
        3 => {
            let count = take_apart(1, words[1]).payload;
            words[1] = pack(62, *rng.pick(&[0, 1, 15, 16, 17, count + 1, count.saturating_sub(1)]));
        }
        4 => {
            words.remove(1);
        }
        _ => change_order(rng, words),
    }
}

/// Another procedure for some call, or a call in the place of some skip.
fn change_call(rng: &mut Prng, words: &mut [u32]) {
    let count = take_apart(1, words[1]).payload;
    let start = rng.below(words.len());
    let skips = rng.once_in(3);
    for i in 0..words.len() {
        let at = (start + i) % words.len();
        if take_apart(at, words[at]).kind != if skips { 24 } else { 38 } {
            continue;
        }
        let any = rng.below(count as usize + 2) as u32;
        words[at] = pack(38, *rng.pick(&[any, any, any, count, 1 << 25, (1 << 26) - 1]));
        return;
    }
}

/// Start and end of each procedure of the table, and of the main program.
fn spans(words: &[u32]) -> Option<Vec<(usize, usize)>> {
    let mut out = Vec::new();
    let mut start = 2;
    for _ in 0..take_apart(1, words[1]).payload.min(16) + 1 {
        let mut end = start;
        for _ in 0..4 {
            end = tree_end(words, end)?;
        }
        out.push((start, end));
        start = end;
    }
    Some(out)
}

/// The procedures and the main program in another order, one of them twice, or one left out.
fn change_order(rng: &mut Prng, words: &mut Vec<u32>) {
    let Some(spans) = spans(words) else { return };
    let mut all: Vec<Vec<u32>> = spans.iter().map(|(start, end)| words[*start..*end].to_vec()).collect();
    let at = rng.below(all.len());
    let to = rng.below(all.len());
    match rng.below(4) {
        0 if all.len() > 2 => {
            all.remove(at);
        }
        1 => {
            let copy = all[at].clone();
            all.insert(to, copy);
        }
        _ => all.swap(at, to),
    }
    words.truncate(1);
    words.push(pack(62, all.len() as u32 - 1));
    words.extend(all.concat());
}
