//! Random expressions, commands and sets, for the generator.

use super::prng::Prng;
use crate::layout::syntax::*;
use crate::naive::modified::Identifiers;

/// The identifiers that one file uses: few, so that they meet often; and what commands may call.
#[derive(Clone, Debug)]
pub struct Pool {
    pub scalars: Vec<u32>,
    pub arrays: Vec<u32>,
    pub callable: Vec<Callable>,
}

/// A procedure's number, and what a call of it modifies.
#[derive(Clone, Debug)]
pub struct Callable {
    pub number: u32,
    pub modified: Identifiers,
}

impl Pool {
    pub fn new(rng: &mut Prng) -> Pool {
        let mut scalars: Vec<u32> = (0..32).collect();
        let mut arrays: Vec<u32> = (0..32).collect();
        if rng.once_in(2) {
            rng.shuffle(&mut scalars);
            rng.shuffle(&mut arrays);
        }
        scalars.truncate(3 + rng.below(4));
        arrays.truncate(1 + rng.below(3));
        Pool { scalars, arrays, callable: Vec::new() }
    }
}

/// The ends of the two cases of request [4], any constant, or a small one: constants that are often the same.
pub fn constant(rng: &mut Prng) -> Arith {
    let c = match rng.below(12) {
        0 => -33_554_432,
        1 => 33_554_431,
        2 => -1,
        3 => rng.below(67_108_864) as i64 - 33_554_432,
        _ => rng.below(4) as i64,
    };
    Arith::Constant(c)
}

pub fn arith(rng: &mut Prng, pool: &Pool, size: usize) -> Arith {
    if size == 0 || rng.once_in(3) {
        if rng.once_in(4) {
            return constant(rng);
        }
        return Arith::Scalar(*rng.pick(&pool.scalars));
    }
    match rng.below(5) {
        0 => Arith::Select(
            Box::new(array(rng, pool, size - 1)),
            Box::new(arith(rng, pool, size - 1)),
        ),
        k => {
            let o = [Operator::Plus, Operator::Minus, Operator::Times][k % 3];
            operate(o, arith(rng, pool, size - 1), arith(rng, pool, size - 1))
        }
    }
}

pub fn array(rng: &mut Prng, pool: &Pool, size: usize) -> Array {
    if size == 0 || rng.once_in(2) {
        if rng.once_in(6) {
            return Array::Zero;
        }
        return Array::Identifier(*rng.pick(&pool.arrays));
    }
    Array::Update(
        Box::new(array(rng, pool, size - 1)),
        Box::new(arith(rng, pool, size - 1)),
        Box::new(arith(rng, pool, size - 1)),
    )
}

pub fn comparison(rng: &mut Prng, pool: &Pool, size: usize) -> Bool {
    let c = *rng.pick(&[Comparison::Equal, Comparison::Less, Comparison::LessOrEqual]);
    compare(c, arith(rng, pool, size), arith(rng, pool, size))
}

/// Now and then with "true and" or "and true" (request [2]).
pub fn boolean(rng: &mut Prng, pool: &Pool, size: usize) -> Bool {
    if rng.once_in(12) {
        let b = boolean(rng, pool, size);
        return if rng.once_in(2) { and(always(), b) } else { and(b, always()) };
    }
    if size == 0 || rng.once_in(2) {
        if rng.once_in(6) {
            return Bool::Truth(rng.once_in(2));
        }
        let inner = size.min(1);
        return comparison(rng, pool, inner);
    }
    match rng.below(3) {
        0 => and(boolean(rng, pool, size - 1), boolean(rng, pool, size - 1)),
        1 => or(boolean(rng, pool, size - 1), boolean(rng, pool, size - 1)),
        _ => not(boolean(rng, pool, size - 1)),
    }
}

pub fn expression(rng: &mut Prng, pool: &Pool, size: usize) -> Expression {
    match rng.below(6) {
        0 => Expression::Array(array(rng, pool, size)),
        1 | 2 => Expression::Bool(boolean(rng, pool, size)),
        _ => Expression::Arith(arith(rng, pool, size)),
    }
}

/// An expression without an identifier (set rule 15).
pub fn constant_expression(rng: &mut Prng) -> Expression {
    match rng.below(4) {
        0 => Expression::Array(Array::Zero),
        1 => Expression::Bool(Bool::Truth(rng.once_in(2))),
        2 => Expression::Arith(Arith::Select(Box::new(Array::Zero), Box::new(constant(rng)))),
        _ => Expression::Arith(operate(Operator::Minus, constant(rng), constant(rng))),
    }
}

/// An antecedent that no truth table makes true (set rule 14).
pub fn contradiction(rng: &mut Prng, pool: &Pool) -> Bool {
    match rng.below(3) {
        0 => Bool::Truth(false),
        1 => {
            let b = boolean(rng, pool, 1);
            and(b.clone(), not(b))
        }
        _ => and(Bool::Truth(false), boolean(rng, pool, 1)),
    }
}

pub fn member(rng: &mut Prng, pool: &Pool) -> Member {
    let phi = match rng.below(8) {
        0..=2 => Bool::Truth(true),
        3 => contradiction(rng, pool),
        4 => and(boolean(rng, pool, 1), boolean(rng, pool, 0)),
        _ => boolean(rng, pool, 2),
    };
    let e = match rng.below(10) {
        0 => constant_expression(rng),
        1 | 2 => Expression::Arith(Arith::Scalar(*rng.pick(&pool.scalars))),
        _ => expression(rng, pool, 2),
    };
    Member { phi, e }
}

pub fn set(rng: &mut Prng, pool: &Pool) -> Set {
    let count = [0, 1, 1, 1, 2, 2, 3][rng.below(7)];
    let mut out: Set = (0..count).map(|_| member(rng, pool)).collect();
    // Sometimes all under one boolean (flow rule 12).
    if rng.once_in(5) {
        let b = boolean(rng, pool, 1);
        for m in out.iter_mut() {
            m.phi = and(m.phi.clone(), b.clone());
        }
    }
    out
}

/// A command; the `locked` scalars are not modified (they are q or m of a
/// `for` around it).
pub fn random_command(rng: &mut Prng, pool: &Pool, size: usize, locked: &[u32]) -> Command {
    let free: Vec<u32> = pool.scalars.iter().copied().filter(|x| !locked.contains(x)).collect();
    if size == 0 {
        return simple_command(rng, pool, locked, &free);
    }
    match rng.below(10) {
        0..=3 => {
            let a = random_command(rng, pool, size - 1, locked);
            let b = random_command(rng, pool, size - 1, locked);
            sequence(a, b)
        }
        4 | 5 => {
            let test = boolean(rng, pool, 1);
            let a = random_command(rng, pool, size - 1, locked);
            let b = random_command(rng, pool, size - 1, locked);
            command(Form::If(test, Box::new(a), Box::new(b)))
        }
        6 | 7 => random_while(rng, pool, size, locked, &free),
        8 => {
            let bounds: Vec<u32> = pool.scalars.clone();
            let m = *rng.pick(&bounds);
            let counters: Vec<u32> = free.iter().copied().filter(|x| *x != m).collect();
            if counters.is_empty() {
                return simple_command(rng, pool, locked, &free);
            }
            let q = *rng.pick(&counters);
            let mut inner = locked.to_vec();
            inner.push(q);
            inner.push(m);
            let body = random_command(rng, pool, size - 1, &inner);
            command(Form::For(q, m, Box::new(body)))
        }
        _ => simple_command(rng, pool, locked, &free),
    }
}

/// A call that modifies no locked scalar, if there is one.
fn random_call(rng: &mut Prng, pool: &Pool, locked: &[u32]) -> Option<Command> {
    let fits = |callable: &&Callable| !locked.iter().any(|x| callable.modified.has_scalar(*x));
    let some: Vec<&Callable> = pool.callable.iter().filter(fits).collect();
    (!some.is_empty()).then(|| call(rng.pick(&some).number))
}

fn simple_command(rng: &mut Prng, pool: &Pool, locked: &[u32], free: &[u32]) -> Command {
    if !pool.callable.is_empty() && rng.once_in(3) {
        if let Some(call) = random_call(rng, pool, locked) {
            return call;
        }
    }
    let form = match rng.below(8) {
        0 => Form::Skip,
        1 => Form::Assert(boolean(rng, pool, 1)),
        2 | 3 => {
            let h = *rng.pick(&pool.arrays);
            if rng.once_in(2) {
                // h[A0] := A
                Form::AssignArray(
                    h,
                    Array::Update(
                        Box::new(Array::Identifier(h)),
                        Box::new(arith(rng, pool, 1)),
                        Box::new(arith(rng, pool, 1)),
                    ),
                )
            } else {
                Form::AssignArray(h, array(rng, pool, 2))
            }
        }
        _ if free.is_empty() => Form::Skip,
        _ => Form::AssignScalar(*rng.pick(free), arith(rng, pool, 2)),
    };
    command(form)
}

/// Often a loop that counts up or down, so that runs end.
fn random_while(rng: &mut Prng, pool: &Pool, size: usize, locked: &[u32], free: &[u32]) -> Command {
    if free.is_empty() || rng.once_in(4) {
        let test = boolean(rng, pool, 1);
        let body = random_command(rng, pool, size - 1, locked);
        return command(Form::While(test, Box::new(body)));
    }
    let i = *rng.pick(free);
    let mut inner = locked.to_vec();
    inner.push(i);
    let up = rng.once_in(2);
    let other = if rng.once_in(2) {
        Arith::Constant(rng.below(5) as i64)
    } else {
        let others: Vec<u32> = pool.scalars.iter().copied().filter(|x| *x != i).collect();
        let m = *rng.pick(&others);
        inner.push(m);
        Arith::Scalar(m)
    };
    let test = if up {
        compare(Comparison::Less, Arith::Scalar(i), other)
    } else {
        compare(Comparison::LessOrEqual, other, Arith::Scalar(i))
    };
    let o = if up { Operator::Plus } else { Operator::Minus };
    let step = command(Form::AssignScalar(i, operate(o, Arith::Scalar(i), Arith::Constant(1))));
    let rest = random_command(rng, pool, size - 1, &inner);
    let body = if rng.once_in(2) { sequence(rest, step) } else { sequence(step, rest) };
    command(Form::While(test, Box::new(body)))
}
