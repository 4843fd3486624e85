//! Document 01, "Rules" 3, 4, 24, 25: "the right side for the identifier",
//! everywhere, also inside an array's own index; the right side that is put
//! in is not replaced again.

use crate::layout::syntax::*;

/// What stands for what.
#[derive(Clone, Copy)]
pub enum Replacement<'a> {
    Scalar(u32, &'a Arith),
    Array(u32, &'a Array),
}

pub fn in_arith(a: &Arith, r: Replacement) -> Arith {
    match a {
        Arith::Constant(c) => Arith::Constant(*c),
        Arith::Scalar(x) => match r {
            Replacement::Scalar(name, by) if name == *x => by.clone(),
            _ => Arith::Scalar(*x),
        },
        Arith::Operate(o, left, right) => operate(*o, in_arith(left, r), in_arith(right, r)),
        Arith::Select(array, index) => {
            Arith::Select(Box::new(in_array(array, r)), Box::new(in_arith(index, r)))
        }
    }
}

pub fn in_bool(b: &Bool, r: Replacement) -> Bool {
    match b {
        Bool::Truth(t) => Bool::Truth(*t),
        Bool::Compare(c, left, right) => compare(*c, in_arith(left, r), in_arith(right, r)),
        Bool::And(left, right) => and(in_bool(left, r), in_bool(right, r)),
        Bool::Or(left, right) => or(in_bool(left, r), in_bool(right, r)),
        Bool::Not(inner) => not(in_bool(inner, r)),
    }
}

pub fn in_array(h: &Array, r: Replacement) -> Array {
    match h {
        Array::Identifier(x) => match r {
            Replacement::Array(name, by) if name == *x => by.clone(),
            _ => Array::Identifier(*x),
        },
        Array::Zero => Array::Zero,
        Array::Update(array, index, value) => Array::Update(
            Box::new(in_array(array, r)),
            Box::new(in_arith(index, r)),
            Box::new(in_arith(value, r)),
        ),
    }
}

pub fn in_expression(e: &Expression, r: Replacement) -> Expression {
    match e {
        Expression::Arith(a) => Expression::Arith(in_arith(a, r)),
        Expression::Bool(b) => Expression::Bool(in_bool(b, r)),
        Expression::Array(h) => Expression::Array(in_array(h, r)),
    }
}

pub fn in_set(set: &[Member], r: Replacement) -> Set {
    let mut out = Set::new();
    for member in set {
        out.push(Member { phi: in_bool(&member.phi, r), e: in_expression(&member.e, r) });
    }
    out
}
