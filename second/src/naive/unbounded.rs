//! Document 01, "Language": runs over unbounded integers and total maps, for
//! the search on demand 3. A bound on steps (and on the size of a value)
//! makes a run give up; it never changes what a run that ends does.

use super::big::Big;
use crate::layout::syntax::*;
use std::collections::BTreeMap;

/// A total map: `rest` everywhere but at finitely many places. No place in
/// `places` holds `rest`, so equal maps are equal values.
#[derive(Clone, PartialEq, Eq, Debug)]
pub struct Map {
    rest: Big,
    places: BTreeMap<Big, Big>,
}

impl Map {
    pub fn everywhere(rest: Big) -> Map {
        Map { rest, places: BTreeMap::new() }
    }

    pub fn at(&self, index: &Big) -> Big {
        self.places.get(index).unwrap_or(&self.rest).clone()
    }

    pub fn with(&self, index: Big, value: Big) -> Map {
        let mut out = self.clone();
        if value == out.rest {
            out.places.remove(&index);
        } else {
            out.places.insert(index, value);
        }
        out
    }
}

#[derive(Clone, PartialEq, Eq, Debug)]
pub struct Store {
    pub scalars: Vec<Big>,
    pub arrays: Vec<Map>,
}

#[derive(Clone, PartialEq, Eq, Debug)]
pub enum Value {
    Number(Big),
    Truth(bool),
    Map(Map),
}

pub fn arith(a: &Arith, s: &Store) -> Big {
    match a {
        Arith::Constant(c) => Big::from(*c),
        Arith::Scalar(x) => s.scalars[*x as usize].clone(),
        Arith::Operate(o, left, right) => {
            let left = arith(left, s);
            let right = arith(right, s);
            match o {
                Operator::Plus => left.plus(&right),
                Operator::Minus => left.minus(&right),
                Operator::Times => left.times(&right),
            }
        }
        Arith::Select(h, index) => array(h, s).at(&arith(index, s)),
    }
}

pub fn boolean(b: &Bool, s: &Store) -> bool {
    match b {
        Bool::Truth(t) => *t,
        Bool::Compare(c, left, right) => {
            let left = arith(left, s);
            let right = arith(right, s);
            match c {
                Comparison::Equal => left == right,
                Comparison::Less => left < right,
                Comparison::LessOrEqual => left <= right,
            }
        }
        Bool::And(left, right) => boolean(left, s) && boolean(right, s),
        Bool::Or(left, right) => boolean(left, s) || boolean(right, s),
        Bool::Not(inner) => !boolean(inner, s),
    }
}

pub fn array(h: &Array, s: &Store) -> Map {
    match h {
        Array::Identifier(name) => s.arrays[*name as usize].clone(),
        Array::Zero => Map::everywhere(Big::from(0)),
        Array::Update(inner, index, value) => {
            array(inner, s).with(arith(index, s), arith(value, s))
        }
    }
}

pub fn value(e: &Expression, s: &Store) -> Value {
    match e {
        Expression::Arith(a) => Value::Number(arith(a, s)),
        Expression::Bool(b) => Value::Truth(boolean(b, s)),
        Expression::Array(h) => Value::Map(array(h, s)),
    }
}

/// "A member φ ⇒ E holds of two stores when φ is false in at least one of
/// them or E has one value in both."
pub fn member_holds(m: &Member, s1: &Store, s2: &Store) -> bool {
    !boolean(&m.phi, s1) || !boolean(&m.phi, s2) || value(&m.e, s1) == value(&m.e, s2)
}

pub fn agree(set: &[Member], s1: &Store, s2: &Store) -> bool {
    set.iter().all(|m| member_holds(m, s1, s2))
}

/// Some member whose antecedent is true in both: the set says something here.
pub fn says_something(set: &[Member], s1: &Store, s2: &Store) -> bool {
    set.iter().any(|m| boolean(&m.phi, s1) && boolean(&m.phi, s2))
}

/// Why there is no end within the bound.
#[derive(Clone, Copy, PartialEq, Eq, Debug)]
pub enum NoEnd {
    AssertionFails,
    BoundReached,
}

/// Digits (of 32 bits) that a value may have before the run gives up.
const MOST_DIGITS: usize = 64;

/// Runs a command, at most `bound` assignments, asserts, skips, calls and tests.
pub fn run(c: &Command, procedures: &[Procedure], s: &mut Store, bound: &mut u64) -> Result<(), NoEnd> {
    if !matches!(c.form, Form::Sequence(..) | Form::For(..)) {
        if *bound == 0 {
            return Err(NoEnd::BoundReached);
        }
        *bound -= 1;
    }
    match &c.form {
        Form::Skip => Ok(()),
        Form::Sequence(a, b) => {
            run(a, procedures, s, bound)?;
            run(b, procedures, s, bound)
        }
        Form::Assert(b) => {
            if boolean(b, s) {
                Ok(())
            } else {
                Err(NoEnd::AssertionFails)
            }
        }
        Form::AssignScalar(x, a) => {
            let value = arith(a, s);
            if value.size() > MOST_DIGITS {
                return Err(NoEnd::BoundReached);
            }
            s.scalars[*x as usize] = value;
            Ok(())
        }
        Form::AssignArray(h, a) => {
            let map = array(a, s);
            if map.places.iter().any(|(i, v)| i.size() > MOST_DIGITS || v.size() > MOST_DIGITS) {
                return Err(NoEnd::BoundReached);
            }
            s.arrays[*h as usize] = map;
            Ok(())
        }
        Form::If(b, then, otherwise) => {
            if boolean(b, s) {
                run(then, procedures, s, bound)
            } else {
                run(otherwise, procedures, s, bound)
            }
        }
        // "Where it is true, the body runs, then the while again."
        Form::While(b, body) => {
            while boolean(b, s) {
                run(body, procedures, s, bound)?;
                if *bound == 0 {
                    return Err(NoEnd::BoundReached);
                }
                *bound -= 1;
            }
            Ok(())
        }
        // By its meaning.
        Form::For(q, m, body) => run(&meaning_of_for(*q, *m, body), procedures, s, bound),
        // "Its body runs from the store at hand, and the call ends where the body ends."
        Form::Call(p) => run(&procedures[*p as usize].command, procedures, s, bound),
    }
}
