//! Refusal 7, and what goes before it.

use crate::generate::mutate::{any_word, mend};
use crate::generate::prng::Prng;
use crate::layout::words::{bytes_of, pack};

/// Refusal 7: `for`s within each other over few scalars, in the program or
/// carried by rules 14 and 30.
pub fn loops(rng: &mut Prng) -> Vec<u8> {
    let empty = pack(32, 0);
    let mut words = vec![0];
    if rng.once_in(2) {
        loop_command(rng, 3, &mut words);
    } else {
        words.push(pack(24, 0));
    }
    words.extend([empty, empty]);
    match rng.below(3) {
        0 => words.push(pack(33, 10)),
        1 => {
            words.extend([pack(33, 9), empty, empty, empty, empty]);
            words.push(pack(33, 14));
            loop_command(rng, 3, &mut words);
            words.push(pack(33, 10));
            words.push(pack(33, 14));
            loop_command(rng, 3, &mut words);
            words.push(pack(33, 10));
        }
        _ => {
            words.extend([pack(33, 12), empty, empty, pack(9, 1), pack(9, 1), pack(33, 10)]);
            words.push(pack(35, 30));
            loop_command(rng, 3, &mut words);
            words.push(pack(35, 29));
        }
    }
    // 3, 5 and 6 go before 7.
    match rng.below(8) {
        0 => words.push(any_word(rng)),
        1 => words.truncate(words.len() - 1),
        2 => {
            let last = words.len() - 1;
            words[last] = any_word(rng);
        }
        _ => {}
    }
    mend(&mut words);
    bytes_of(&words)
}

fn loop_command(rng: &mut Prng, size: usize, out: &mut Vec<u32>) {
    let choice = if size == 0 { rng.below(3) } else { rng.below(10) };
    match choice {
        0 => out.push(pack(24, 0)),
        1 => out.extend([pack(27, rng.below(8) as u32), pack(2, 0)]),
        2 => out.extend([pack(28, rng.below(8) as u32), pack(17, 0)]),
        3 | 4 => {
            out.push(pack(25, 0));
            loop_command(rng, size - 1, out);
            loop_command(rng, size - 1, out);
        }
        5 => {
            out.extend([pack(29, 0), pack(9, 1)]);
            loop_command(rng, size - 1, out);
            loop_command(rng, size - 1, out);
        }
        6 => {
            out.extend([pack(30, 0), pack(9, 1)]);
            loop_command(rng, size - 1, out);
        }
        _ => {
            out.push(pack(31, (rng.below(8) + 32 * rng.below(8)) as u32));
            loop_command(rng, size - 1, out);
        }
    }
}
