//! Settings of request [6] for a file: at the ends of the ranges, around what the file needs, and outside the ranges.

use super::mutate::class_and_parts;
use super::prng::Prng;
use crate::layout::settings::{Settings, HIGHEST, LOWEST, STANDARD};
use crate::layout::words::{take_apart, words_of};
use crate::naive::judge::{check_settings, Answer};

/// The least settings under which no word is too deep, no set has too many members, and no implication too many comparisons. Where no
/// setting in range is enough, the number is above the range; but a word 32:m with m over 129 is taken for no set.
pub fn needs(bytes: &[u8]) -> Settings {
    let words = words_of(bytes).unwrap_or_default();
    let sets = words.iter().map(|word| take_apart(0, *word)).filter(|word| word.kind == 32);
    let members = sets.map(|set| u64::from(set.payload)).filter(|count| *count <= HIGHEST.members + 1).max().unwrap_or(0);
    Settings { comparisons: comparisons(bytes, &words), depth: depth(&words), members }
}

/// The depth of the deepest word, as far as the words go.
fn depth(words: &[u32]) -> u64 {
    // how many parts are still due at each level
    let (mut due, mut most) = (Vec::new(), 1);
    let first = match words.get(1).map(|word| take_apart(1, *word)) {
        Some(table) if table.kind == 62 => 2,
        _ => 1,
    };
    for word in words.iter().skip(first) {
        most = most.max(due.len() as u64 + 1);
        match class_and_parts(*word) {
            Some((_, parts)) if parts > 0 => due.push(parts),
            _ => finish(&mut due),
        }
    }
    most
}

/// A part without parts ends, and with it those that it is the last part of.
fn finish(due: &mut Vec<usize>) {
    while let Some(parts) = due.last_mut() {
        *parts -= 1;
        if *parts > 0 {
            return;
        }
        due.pop();
    }
}

/// Whether a word is a rule that asks for an implication.
fn implies(word: u32) -> bool {
    let word = take_apart(0, word);
    matches!((word.kind, word.payload), (34, 14 | 18) | (35, 21 | 28))
}

/// The least number under which the file is not refused with 9, by halves.
fn comparisons(bytes: &[u8], words: &[u32]) -> u64 {
    if !words.iter().any(|word| implies(*word)) {
        return 0;
    }
    let too_few = |comparisons| match check_settings(bytes, Settings { comparisons, ..HIGHEST }) {
        Answer::Refused(refusal) => refusal.number == 9,
        Answer::Accepted(_) => false,
    };
    let (mut low, mut high) = (0, HIGHEST.comparisons + 1);
    while low < high {
        let middle = (low + high) / 2;
        if too_few(middle) {
            low = middle + 1;
        } else {
            high = middle;
        }
    }
    low
}

/// One of the numbers, within its range: at what is needed, one less or more, an end, the old one, or any.
fn number(rng: &mut Prng, which: usize, need: u64) -> u64 {
    let (low, high) = (LOWEST.numbers()[which], HIGHEST.numbers()[which]);
    let number = match rng.below(12) {
        0 => low,
        1 => high,
        2 => STANDARD.numbers()[which],
        3 => low + rng.below((high - low + 1) as usize) as u64,
        4..=6 => need.saturating_sub(1),
        7 => need + 1,
        _ => need,
    };
    number.clamp(low, high)
}

/// Settings in range for a file. Often two of them are enough for it, so that the third alone decides.
pub fn in_range(rng: &mut Prng, bytes: &[u8]) -> Settings {
    let needs = needs(bytes).numbers();
    let mut numbers = match rng.below(5) {
        0 | 1 => HIGHEST.numbers(),
        2 => STANDARD.numbers(),
        3 => needs,
        _ => std::array::from_fn(|which| number(rng, which, needs[which])),
    };
    let which = rng.below(3);
    numbers[which] = number(rng, which, needs[which]);
    for (which, number) in numbers.iter_mut().enumerate() {
        *number = (*number).clamp(LOWEST.numbers()[which], HIGHEST.numbers()[which]);
    }
    Settings::of(numbers)
}

/// Settings of which one at least is outside its range.
pub fn outside(rng: &mut Prng) -> Settings {
    let mut numbers = rng.pick(&[LOWEST, STANDARD, HIGHEST]).numbers();
    for _ in 0..1 + rng.below(3) {
        let which = rng.below(3);
        numbers[which] = match rng.below(5) {
            0 => u64::MAX,
            // in range where the high bits are lost
            1 => STANDARD.numbers()[which] + *rng.pick(&[1 << 8, 1 << 16, 1 << 31, 1 << 32, 1 << 63]),
            2 if which == 1 => 0,
            _ => HIGHEST.numbers()[which] + 1,
        };
    }
    match Settings::of(numbers) {
        settings if settings.in_range() => outside(rng),
        settings => settings,
    }
}

/// Settings for a file, one time in eight outside the ranges.
pub fn settings(rng: &mut Prng, bytes: &[u8]) -> Settings {
    if rng.once_in(8) {
        return outside(rng);
    }
    in_range(rng, bytes)
}

/// The old settings, or one time in three others.
pub fn often_standard(rng: &mut Prng, bytes: &[u8]) -> Settings {
    if rng.once_in(3) {
        return settings(rng, bytes);
    }
    STANDARD
}

/// Settings in range, each at least as high.
pub fn raised(rng: &mut Prng, low: Settings) -> Settings {
    let mut numbers = low.numbers();
    for (number, highest) in numbers.iter_mut().zip(HIGHEST.numbers()) {
        *number = match rng.below(4) {
            0 => *number,
            1 => (*number + 1).min(highest),
            2 => highest,
            _ => *number + rng.below((highest - *number + 1) as usize) as u64,
        };
    }
    Settings::of(numbers)
}
