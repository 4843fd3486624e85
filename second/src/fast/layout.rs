//! Document 01, "Layout", with requests [3] and [4]: the kinds of words, the constant of a payload, and what each evidence word
//! carries; and the sizes of "Runner".

pub const MOST_WORDS: usize = 8_192;
pub const MOST_PROCEDURES: usize = 16;

pub const SCALARS: usize = 32;
pub const INDEXES: usize = 64;
pub const ARRAY_VALUES: usize = 32 * INDEXES;
pub const MOST_BUDGET: u64 = 1_000_000;

pub const CONSTANT: u32 = 1;
pub const SCALAR: u32 = 2;
pub const OPERATOR: u32 = 3;
pub const SELECT: u32 = 4;
pub const COMPARISON: u32 = 8;
pub const TRUTH: u32 = 9;
pub const AND: u32 = 10;
pub const OR: u32 = 11;
pub const NOT: u32 = 12;
pub const ARRAY: u32 = 16;
pub const ZERO: u32 = 17;
pub const UPDATE: u32 = 18;
pub const SKIP: u32 = 24;
pub const SEQUENCE: u32 = 25;
pub const ASSERT: u32 = 26;
pub const ASSIGN: u32 = 27;
pub const ASSIGN_ARRAY: u32 = 28;
pub const IF: u32 = 29;
pub const WHILE: u32 = 30;
pub const FOR: u32 = 31;
pub const SET: u32 = 32;
pub const FLOW: u32 = 33;
pub const IMPLICATION: u32 = 34;
pub const PRECONDITION: u32 = 35;
pub const CALL: u32 = 38;
pub const TABLE: u32 = 62;
pub const FILE: u32 = 63;

pub const TRUE_WORD: u32 = word(TRUTH, 1);
pub const AND_WORD: u32 = word(AND, 0);
pub const OR_WORD: u32 = word(OR, 0);
pub const NOT_WORD: u32 = word(NOT, 0);

pub const fn word(kind: u32, payload: u32) -> u32 {
    kind << 26 | payload
}

pub const fn kind(word: u32) -> u32 {
    word >> 26
}

pub const fn payload(word: u32) -> u32 {
    word & ((1 << 26) - 1)
}

/// A constant's payload (request [4]): below 33,554,432 the payload itself, otherwise the payload less 67,108,864.
pub const fn constant_of(payload: u32) -> i64 {
    if payload < 33_554_432 {
        payload as i64
    } else {
        payload as i64 - 67_108_864
    }
}

/// What follows an evidence word.
#[derive(Clone, Copy)]
pub enum Item {
    Set,
    Boolean,
    Command,
    Evidence(u32),
}

use Item::*;
const F: Item = Evidence(FLOW);
const I: Item = Evidence(IMPLICATION);
const P: Item = Evidence(PRECONDITION);

/// The items of a rule in their order; none if the kind has no such rule.
pub fn items(kind: u32, rule: u32) -> Option<&'static [Item]> {
    Some(match (kind, rule) {
        (FLOW, 1 | 3 | 4 | 5 | 10 | 31) => &[],
        (FLOW, 2) => &[Set, F, F],
        (FLOW, 6) => &[Set, Set, Boolean, F, F, P],
        (FLOW, 7) => &[Set, I, F],
        (FLOW, 8) => &[Set, F, I],
        (FLOW, 9) => &[Set, Set, Set, Set, F, F],
        (FLOW, 11) => &[P],
        (FLOW, 12) => &[Set, Set, Boolean, Boolean, F, P],
        (FLOW, 13) => &[F],
        (FLOW, 14) => &[Command, F],
        (IMPLICATION, 13 | 14 | 15 | 18 | 19) => &[],
        (IMPLICATION, 16) => &[Set, Set, Set, Set, I, I],
        (IMPLICATION, 17) => &[Set, Set, Set, I, I],
        (PRECONDITION, 20) => &[Boolean, Boolean, P, P],
        (PRECONDITION, 21 | 28) => &[Boolean, P],
        (PRECONDITION, 22 | 24..=27 | 29) => &[],
        (PRECONDITION, 23) => &[Boolean, P, P],
        (PRECONDITION, 30) => &[Command, P],
        (PRECONDITION, 32) => &[P],
        _ => return None,
    })
}
