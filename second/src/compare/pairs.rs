//! Demand 3, by search: pairs of stores that agree as the precondition
//! demands, run without bounds on values; where both runs end, the ends must
//! agree as the postcondition demands.

use crate::generate::prng::Prng;
use crate::layout::syntax::*;
use crate::naive::big::Big;
use crate::naive::modified::{in_set, used_by, Identifiers};
use crate::naive::unbounded::{agree, run, says_something, Map, NoEnd, Store};

#[derive(Clone, Copy, PartialEq, Eq, Debug)]
pub enum Found {
    /// Only the store itself agrees with it, as far as was tried.
    NoPair,
    AssertionFails,
    BoundReached,
    /// Both ended; no member of the postcondition is true in both.
    Vacuous,
    /// Both ended and agree, though some antecedent is true in both.
    Agree,
    Counterexample,
}

fn value(rng: &mut Prng) -> Big {
    match rng.below(16) {
        0 => Big::from(i64::MAX),
        1 => Big::from(i64::MIN).times(&Big::from(i64::MAX)),
        2 => Big::from(33_554_431),
        3 => Big::from(-33_554_432),
        _ => Big::from(rng.below(6) as i64 - 2),
    }
}

fn store(rng: &mut Prng, used: &Identifiers) -> Store {
    let mut scalars = vec![Big::from(0); 32];
    let mut arrays = vec![Map::everywhere(Big::from(0)); 32];
    for x in used.all_scalars() {
        scalars[x as usize] = value(rng);
    }
    for h in used.all_arrays() {
        let mut map = Map::everywhere(value(rng));
        for _ in 0..rng.below(5) {
            map = map.with(value(rng), value(rng));
        }
        arrays[h as usize] = map;
    }
    Store { scalars, arrays }
}

/// One value of a store changed: a scalar, an array at a place, or an array
/// everywhere.
fn changed(rng: &mut Prng, s: &Store, used: &Identifiers) -> Store {
    let scalars = used.all_scalars();
    let arrays = used.all_arrays();
    let mut out = s.clone();
    let n = rng.below(scalars.len() + arrays.len());
    if n < scalars.len() {
        out.scalars[scalars[n] as usize] = value(rng);
    } else {
        let h = arrays[n - scalars.len()] as usize;
        out.arrays[h] = if rng.once_in(8) {
            Map::everywhere(value(rng))
        } else {
            out.arrays[h].with(value(rng), value(rng))
        };
    }
    out
}

/// A store, and one that differs where the precondition leaves it free:
/// each change is kept only if the two still agree as it demands.
fn pair(rng: &mut Prng, pre: &Set, used: &Identifiers) -> Option<(Store, Store)> {
    if used.is_empty() {
        return None;
    }
    let s1 = store(rng, used);
    let mut s2 = s1.clone();
    for _ in 0..20 {
        let mut next = changed(rng, &s2, used);
        if rng.once_in(3) {
            next = changed(rng, &next, used);
        }
        if agree(pre, &s1, &next) {
            s2 = next;
        }
    }
    (s1 != s2).then_some((s1, s2))
}

/// What is claimed: of the main program, and of each procedure.
struct Contract<'a> {
    pre: &'a Set,
    command: &'a Command,
    post: &'a Set,
}

/// One of the contracts of a file.
fn any_contract<'a>(rng: &mut Prng, file: &'a File) -> Contract<'a> {
    match file.procedures.get(rng.below(file.procedures.len() + 1)) {
        Some(procedure) => Contract { pre: &procedure.pre, command: &procedure.command, post: &procedure.post },
        None => Contract { pre: &file.pre, command: &file.command, post: &file.post },
    }
}

/// One pair for one contract of a file.
pub fn try_pair(rng: &mut Prng, file: &File, bound: u64) -> (Found, Option<(Store, Store)>) {
    let Contract { pre, command, post } = any_contract(rng, file);
    let mut used = used_by(command, &file.procedures);
    in_set(pre, &mut used);
    in_set(post, &mut used);
    let Some((s1, s2)) = pair(rng, pre, &used) else { return (Found::NoPair, None) };
    let (mut e1, mut e2) = (s1.clone(), s2.clone());
    for end in [&mut e1, &mut e2] {
        match run(command, &file.procedures, end, &mut bound.clone()) {
            Ok(()) => {}
            Err(NoEnd::AssertionFails) => return (Found::AssertionFails, None),
            Err(NoEnd::BoundReached) => return (Found::BoundReached, None),
        }
    }
    if !agree(post, &e1, &e2) {
        return (Found::Counterexample, Some((s1, s2)));
    }
    if says_something(post, &e1, &e2) {
        (Found::Agree, None)
    } else {
        (Found::Vacuous, None)
    }
}
