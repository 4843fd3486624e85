//! Depth 128, or the most that is set: expressions, commands and evidence nested in themselves.

use crate::generate::mutate::{any_word, mend};
use crate::generate::prng::Prng;
use crate::layout::settings::Settings;
use crate::layout::words::{bytes_of, pack};
use crate::naive::judge::{check_settings, Answer};

/// Words that are each one deeper than the one before, `levels` of them, and
/// then the leaves that are still due.
fn nest(rng: &mut Prng, levels: usize, sort: u32, out: &mut Vec<u32>) {
    if levels <= 1 {
        let leaf = match sort {
            1 => *rng.pick(&[pack(1, 0), pack(2, 31)]),
            2 => pack(9, 1),
            _ => *rng.pick(&[pack(16, 31), pack(17, 0)]),
        };
        out.push(leaf);
        return;
    }
    // Kind, and the sorts of its operands.
    let choices: &[(u32, &[u32])] = match sort {
        1 => &[(3, &[1, 1]), (4, &[3, 1])],
        2 => &[(8, &[1, 1]), (10, &[2, 2]), (11, &[2, 2]), (12, &[2])],
        _ => &[(18, &[3, 1, 1])],
    };
    let (kind, operands) = *rng.pick(choices);
    let deep = rng.below(operands.len());
    out.push(pack(kind, 0));
    for (i, operand) in operands.iter().enumerate() {
        let levels = if i == deep { levels - 1 } else { 1 };
        nest(rng, levels, *operand, out);
    }
}

/// Now and then a wrong word (4 goes before 5 at a word), or an end where a
/// word that is too deep is due (3 goes before 4).
fn spoil(rng: &mut Prng, words: &mut Vec<u32>, most: Settings) {
    if rng.once_in(6) {
        let at = 1 + rng.below(words.len() - 1);
        words[at] = any_word(rng);
    }
    mend(words);
    if rng.once_in(2) {
        return;
    }
    if let Answer::Refused(r) = check_settings(&bytes_of(words), most) {
        if r.number == 4 && rng.once_in(2) {
            words.truncate(r.place);
            mend(words);
        } else if r.number == 4 {
            words[r.place] = any_word(rng);
        }
    }
}

/// P and Q one member, the consequent or the antecedent nested: depth 2
/// begins it.
pub fn deep_expression(rng: &mut Prng, most: Settings) -> Vec<u8> {
    let levels = most.depth as usize - 3 + rng.below(4);
    let mut one = vec![pack(32, 1)];
    if rng.once_in(2) {
        one.push(pack(9, 1));
        let sort = 1 + rng.below(3) as u32;
        nest(rng, levels, sort, &mut one);
    } else {
        nest(rng, levels, 2, &mut one);
        one.push(pack(17, 0));
    }
    let mut words = vec![0, pack(24, 0)];
    words.extend(&one);
    words.extend(&one);
    words.push(pack(33, 1));
    spoil(rng, &mut words, most);
    bytes_of(&words)
}

fn nest_command(rng: &mut Prng, levels: usize, out: &mut Vec<u32>) {
    if levels <= 1 {
        out.push(pack(24, 0));
        return;
    }
    let skip = pack(24, 0);
    // What stands before the command within, and after it.
    let (before, after) = match rng.below(6) {
        0 => (vec![pack(25, 0)], vec![skip]),
        1 => (vec![pack(25, 0), skip], vec![]),
        2 => (vec![pack(29, 0), pack(9, 0)], vec![skip]),
        3 => (vec![pack(30, 0), pack(9, 1)], vec![]),
        // Each `for` its own q where that is possible.
        4 => (vec![pack(31, levels as u32 % 31 + 32 * 31)], vec![]),
        _ => {
            let (kind, sort) = *rng.pick(&[(26, 2), (27, 1), (28, 3)]);
            out.push(pack(kind, 0));
            return nest(rng, levels - 1, sort, out);
        }
    };
    out.extend(before);
    nest_command(rng, levels - 1, out);
    out.extend(after);
}

pub fn deep_command(rng: &mut Prng, most: Settings) -> Vec<u8> {
    let levels = most.depth as usize - 2 + rng.below(4);
    let mut words = vec![0];
    if rng.once_in(2) {
        nest_command(rng, levels, &mut words);
    } else {
        // Only commands.
        for _ in 1..levels {
            words.push(pack(25, 0));
        }
        words.push(pack(24, 0));
        for _ in 1..levels {
            words.push(pack(24, 0));
        }
    }
    words.extend([pack(32, 0), pack(32, 0), pack(33, 10)]);
    spoil(rng, &mut words, most);
    bytes_of(&words)
}

/// Skip and empty sets; evidence nested in itself.
pub fn deep_evidence(rng: &mut Prng, most: Settings) -> Vec<u8> {
    let levels = most.depth as usize - 2 + rng.below(4);
    let empty = pack(32, 0);
    let truth = pack(9, 1);
    let mut words = vec![0, pack(24, 0)];
    match rng.below(5) {
        0 => {
            words.extend([empty, empty]);
            for _ in 1..levels {
                words.extend([pack(33, 7), empty, pack(34, 13)]);
            }
            words.push(pack(33, 1));
        }
        1 => {
            words.extend([empty, empty]);
            for _ in 1..levels {
                words.extend([pack(33, 8), empty]);
            }
            words.push(pack(33, 1));
            for _ in 1..levels {
                words.push(pack(34, 13));
            }
        }
        2 => {
            words.extend([empty, empty]);
            for _ in 1..levels {
                words.extend([pack(33, 9), empty, empty, empty, empty, pack(33, 10)]);
            }
            words.push(pack(33, 1));
        }
        3 => {
            let one = [pack(32, 1), truth, pack(17, 0)];
            words.extend(one);
            words.extend(one);
            words.push(pack(33, 11));
            for _ in 2..levels {
                words.extend([pack(35, 28), truth]);
            }
            words.push(pack(35, *rng.pick(&[22, 27, 29])));
        }
        _ => {
            words.extend([empty, empty]);
            words.extend([pack(33, 7), empty]);
            for _ in 2..levels {
                if rng.once_in(2) {
                    words.extend([pack(34, 16), empty, empty, empty, empty, pack(34, 14)]);
                } else {
                    words.extend([pack(34, 17), empty, empty, empty, pack(34, 13)]);
                }
            }
            words.push(pack(34, 13));
            words.push(pack(33, 10));
        }
    }
    spoil(rng, &mut words, most);
    bytes_of(&words)
}
