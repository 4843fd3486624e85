//! "Implies": a truth table with a column of 64 assignments in a number, as many numbers as the comparisons ask for, up to the 1,024
//! assignments of ten comparisons. More comparisons have more such blocks, one after the other up to the first in which it fails; within
//! a block the comparisons from the eleventh on are settled.

use super::layout::*;
use super::settings::MOST_COMPARISONS;
use super::{refusal, Judge, Parts, Refused};

/// The comparisons that take both values within a block.
const IN_BLOCK: usize = 10;
/// The numbers of a block.
const MOST_NUMBERS: usize = 1 << (IN_BLOCK - 6);

/// The columns of the comparisons, then of false and of true: row r gives comparison k bit k of r.
static COLUMNS: [[u64; MOST_NUMBERS]; IN_BLOCK + 2] = columns();

const fn columns() -> [[u64; MOST_NUMBERS]; IN_BLOCK + 2] {
    let mut columns = [[0; MOST_NUMBERS]; IN_BLOCK + 2];
    columns[IN_BLOCK + 1] = [u64::MAX; MOST_NUMBERS];
    let mut row = 0;
    while row < 64 * MOST_NUMBERS {
        let mut k = 0;
        while k < IN_BLOCK {
            columns[k][row / 64] |= ((row >> k & 1) as u64) << (row % 64);
            k += 1;
        }
        row += 1;
    }
    columns
}

/// A boolean part, or its negation.
#[derive(Clone, Copy)]
pub struct Literal {
    pub part: usize,
    pub negated: bool,
}

pub fn positive(part: usize) -> Literal {
    Literal { part, negated: false }
}

pub fn negated(part: usize) -> Literal {
    Literal { part, negated: true }
}

/// The distinct comparisons of both sides, by words, and the number of each that was met, by its place.
struct Table<'a> {
    parts: &'a Parts,
    numbers: &'a mut [u8; MOST_WORDS],
    found: [usize; MOST_COMPARISONS],
    count: usize,
    most: usize,
    /// Bit k is the value of comparison 10 + k.
    block: usize,
}

impl Judge<'_> {
    /// Whether the left literals together imply the right part (none: false); refusals 8 and 9 are at `place`.
    pub fn implies(&mut self, left: &[Literal], right: Option<usize>, place: usize) -> Result<(), Refused> {
        let (numbers, most) = (&mut *self.numbers, self.comparisons);
        let mut table = Table { parts: self.parts, numbers, found: [0; MOST_COMPARISONS], count: 0, most, block: 0 };
        let all = left.iter().map(|literal| literal.part).chain(right);
        for part in all {
            table.collect(part).ok_or(refusal(9, place))?;
        }
        let holds = match table.count {
            0..=6 => table.holds::<1, false>(left, right),
            7 => table.holds::<2, false>(left, right),
            8 => table.holds::<4, false>(left, right),
            9 => table.holds::<8, false>(left, right),
            IN_BLOCK => table.holds::<MOST_NUMBERS, false>(left, right),
            _ => table.holds_in_blocks(left, right),
        };
        if holds {
            Ok(())
        } else {
            Err(refusal(8, place))
        }
    }
}

impl Table<'_> {
    /// Numbers the part's comparisons; none if they are too many.
    fn collect(&mut self, part: usize) -> Option<()> {
        let mut at = part;
        while at < self.parts.end(part) {
            if self.parts.kind(at) == COMPARISON {
                self.numbers[at] = self.number(at)? as u8;
                at = self.parts.end(at);
            } else {
                at += 1;
            }
        }
        Some(())
    }

    fn number(&mut self, comparison: usize) -> Option<usize> {
        let known = &self.found[..self.count];
        // an antecedent is met often: try the number that it gave this comparison the last time
        let last = usize::from(self.numbers[comparison]);
        if known.get(last).is_some_and(|other| self.parts.equal(comparison, *other)) {
            return Some(last);
        }
        if let Some(number) = known.iter().position(|other| self.parts.equal(comparison, *other)) {
            return Some(number);
        }
        if self.count == self.most {
            return None;
        }
        self.found[self.count] = comparison;
        self.count += 1;
        Some(self.count - 1)
    }

    fn holds_in_blocks(&mut self, left: &[Literal], right: Option<usize>) -> bool {
        (0..1 << (self.count - IN_BLOCK)).all(|block| {
            self.block = block;
            self.holds::<MOST_NUMBERS, true>(left, right)
        })
    }

    /// `BLOCKS`: this is one block of several.
    fn holds<const N: usize, const BLOCKS: bool>(&self, left: &[Literal], right: Option<usize>) -> bool {
        let mut true_left = [u64::MAX; N];
        for literal in left {
            let mut column = [0; N];
            self.column::<N, BLOCKS>(literal.part, &mut column);
            let flip = if literal.negated { u64::MAX } else { 0 };
            each(&mut true_left, &column, |l, c| l & (c ^ flip));
        }
        let mut true_right = [0; N];
        if let Some(part) = right {
            self.column::<N, BLOCKS>(part, &mut true_right);
        }
        (0..N).all(|i| true_left[i] & !true_right[i] == 0)
    }

    fn column<const N: usize, const BLOCKS: bool>(&self, part: usize, out: &mut [u64; N]) {
        match self.parts.kind(part) {
            COMPARISON | TRUTH => *out = *self.leaf::<N, BLOCKS>(part),
            NOT => {
                self.column::<N, BLOCKS>(part + 1, out);
                out.iter_mut().for_each(|x| *x = !*x);
            }
            kind => {
                self.column::<N, BLOCKS>(part + 1, out);
                let right = self.parts.end(part + 1);
                if matches!(self.parts.kind(right), COMPARISON | TRUTH) {
                    join(kind, out, self.leaf::<N, BLOCKS>(right));
                } else {
                    let mut column = [0; N];
                    self.column::<N, BLOCKS>(right, &mut column);
                    join(kind, out, &column);
                }
            }
        }
    }

    /// The column of a comparison or a truth.
    fn leaf<const N: usize, const BLOCKS: bool>(&self, part: usize) -> &'static [u64; N] {
        let number = match self.parts.kind(part) {
            COMPARISON => match usize::from(self.numbers[part]) {
                settled if BLOCKS && settled >= IN_BLOCK => IN_BLOCK + (self.block >> (settled - IN_BLOCK) & 1),
                number => number,
            },
            _ => IN_BLOCK + self.parts.payload(part) as usize,
        };
        COLUMNS[number][..N].try_into().expect("N is at most the length")
    }
}

fn join<const N: usize>(kind: u32, out: &mut [u64; N], other: &[u64; N]) {
    if kind == AND {
        each(out, other, |a, b| a & b);
    } else {
        each(out, other, |a, b| a | b);
    }
}

fn each<const N: usize>(out: &mut [u64; N], other: &[u64; N], operate: impl Fn(u64, u64) -> u64) {
    for i in 0..N {
        out[i] = operate(out[i], other[i]);
    }
}
