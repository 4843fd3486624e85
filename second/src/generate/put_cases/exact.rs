//! Expressions and simple commands of exactly so many words. Arithmetic has no words 2 or 4, an array none of 2, 3 or 5.

use crate::generate::parts::{self, Pool};
use crate::generate::prng::Prng;
use crate::layout::syntax::*;

pub fn arith_fits(words: usize) -> bool {
    !matches!(words, 0 | 2 | 4)
}

pub fn array_fits(words: usize) -> bool {
    !matches!(words, 0 | 2 | 3 | 5)
}

/// Two counts that add up to a number, which is 2 or more.
fn two(rng: &mut Prng, sum: usize) -> (usize, usize) {
    let first = 1 + rng.below(sum - 1);
    (first, sum - first)
}

/// Of so many words; `arith_fits` says of how many there are some.
pub fn arith(rng: &mut Prng, pool: &Pool, words: usize) -> Arith {
    if words == 1 {
        return parts::arith(rng, pool, 0);
    }
    loop {
        let (a, b) = two(rng, words - 1);
        if rng.once_in(2) && array_fits(a) && arith_fits(b) {
            return Arith::Select(Box::new(array(rng, pool, a)), Box::new(arith(rng, pool, b)));
        }
        if arith_fits(a) && arith_fits(b) {
            let o = *rng.pick(&[Operator::Plus, Operator::Minus, Operator::Times]);
            return operate(o, arith(rng, pool, a), arith(rng, pool, b));
        }
    }
}

/// Of so many words; `array_fits` says of how many there are some.
pub fn array(rng: &mut Prng, pool: &Pool, words: usize) -> Array {
    if words == 1 {
        return parts::array(rng, pool, 0);
    }
    loop {
        let (a, rest) = two(rng, words - 1);
        if rest < 2 {
            continue;
        }
        let (b, c) = two(rng, rest);
        if array_fits(a) && arith_fits(b) && arith_fits(c) {
            let (inner, index, value) = (array(rng, pool, a), arith(rng, pool, b), arith(rng, pool, c));
            return Array::Update(Box::new(inner), Box::new(index), Box::new(value));
        }
    }
}

/// Of any count from 1.
pub fn boolean(rng: &mut Prng, pool: &Pool, words: usize) -> Bool {
    match words {
        1 => return Bool::Truth(rng.once_in(2)),
        2 => return not(boolean(rng, pool, 1)),
        _ => {}
    }
    let (a, b) = two(rng, words - 1);
    match rng.below(8) {
        0 => not(boolean(rng, pool, words - 1)),
        1..=4 if arith_fits(a) && arith_fits(b) => {
            let c = *rng.pick(&[Comparison::Equal, Comparison::Less, Comparison::LessOrEqual]);
            compare(c, arith(rng, pool, a), arith(rng, pool, b))
        }
        5 => or(boolean(rng, pool, a), boolean(rng, pool, b)),
        _ => and(boolean(rng, pool, a), boolean(rng, pool, b)),
    }
}

/// An assignment of so many words to this scalar, if there is one.
pub fn assignment(rng: &mut Prng, pool: &Pool, x: u32, words: usize) -> Option<Command> {
    (words > 1 && arith_fits(words - 1)).then(|| command(Form::AssignScalar(x, arith(rng, pool, words - 1))))
}

/// A skip, assert or assignment of so many words, 1 or more.
pub fn simple(rng: &mut Prng, pool: &Pool, words: usize) -> Command {
    if words == 1 {
        return skip();
    }
    let rest = words - 1;
    let form = match rng.below(8) {
        0..=3 if arith_fits(rest) => Form::AssignScalar(*rng.pick(&pool.scalars), arith(rng, pool, rest)),
        4 | 5 if array_fits(rest) => Form::AssignArray(*rng.pick(&pool.arrays), array(rng, pool, rest)),
        _ => Form::Assert(boolean(rng, pool, rest)),
    };
    command(form)
}

/// An assert of so many words, 2 or more, each one deeper than the one before.
pub fn chain(words: usize) -> Command {
    let inner = (2..words).fold(always(), |inner, _| not(inner));
    command(Form::Assert(inner))
}
