//! Booleans with "true and" and "and true" put in, at any depth, and with changes that look alike and are none of that.

use crate::generate::prng::Prng;
use crate::layout::syntax::*;

/// Only `and` and true: mostly true alone.
fn truth(rng: &mut Prng) -> Bool {
    if rng.once_in(4) {
        and(truth(rng), truth(rng))
    } else {
        always()
    }
}

/// How the words that are put in are nested.
#[derive(Clone, Copy)]
pub enum Nested {
    /// true ∧ (true ∧ φ)
    Right,
    /// (φ ∧ true) ∧ true
    Left,
    Either,
}

pub fn nested(rng: &mut Prng) -> Nested {
    *rng.pick(&[Nested::Right, Nested::Left, Nested::Either])
}

/// The boolean with so many trues around it.
pub fn chain(rng: &mut Prng, b: Bool, length: usize, nested: Nested) -> Bool {
    let mut out = b;
    for _ in 0..length {
        let first = match nested {
            Nested::Right => true,
            Nested::Left => false,
            Nested::Either => rng.once_in(2),
        };
        out = if first { and(truth(rng), out) } else { and(out, truth(rng)) };
    }
    out
}

/// The boolean with trues put around one of its parts, or around all of it.
pub fn with_true(rng: &mut Prng, b: &Bool) -> Bool {
    match below(rng, b) {
        Some((part, whole)) => whole(with_true(rng, &part)),
        None => {
            let length = *rng.pick(&[1, 1, 1, 1, 2, 3, 20]);
            let nested = nested(rng);
            chain(rng, b.clone(), length, nested)
        }
    }
}

/// The same with a change that is no dropping of "true and" or "and true".
pub fn with_other(rng: &mut Prng, b: &Bool) -> Bool {
    match below(rng, b) {
        Some((part, whole)) => whole(with_other(rng, &part)),
        None => other(rng, b.clone()),
    }
}

type Whole = Box<dyn FnOnce(Bool) -> Bool>;

/// Now and then a part of the boolean, and how the whole is made of what it becomes.
fn below(rng: &mut Prng, b: &Bool) -> Option<(Bool, Whole)> {
    if rng.once_in(2) {
        return None;
    }
    let left = rng.once_in(2);
    Some(match b.clone() {
        Bool::And(a, b) if left => (*a, Box::new(|a| and(a, *b)) as Whole),
        Bool::And(a, b) => (*b, Box::new(|b| and(*a, b))),
        Bool::Or(a, b) if left => (*a, Box::new(|a| or(a, *b))),
        Bool::Or(a, b) => (*b, Box::new(|b| or(*a, b))),
        Bool::Not(a) => (*a, Box::new(not)),
        Bool::Truth(_) | Bool::Compare(..) => return None,
    })
}

fn other(rng: &mut Prng, b: Bool) -> Bool {
    let never = Bool::Truth(false);
    match (rng.below(11), b) {
        (0, b) => or(always(), b),
        (1, b) => or(b, always()),
        (2, b) => or(b, never),
        (3, b) => or(never, b),
        (4, b) => and(never, b),
        (5, b) => and(b, not(never)),
        (6, b) => not(not(b)),
        (7, b) => and(b.clone(), b),
        (8, b) => and(or(always(), always()), b),
        (_, Bool::And(a, b)) => exchanged(*a, *b, and),
        (_, Bool::Or(a, b)) => exchanged(*a, *b, or),
        (_, b) => and(b, never),
    }
}

/// In another order, or grouped in another way.
fn exchanged(a: Bool, b: Bool, by: fn(Bool, Bool) -> Bool) -> Bool {
    match (a, b) {
        (Bool::And(a, b), c) => by(*a, by(*b, c)),
        (a, b) => by(b, a),
    }
}
