//! 64 members in a set, 10 comparisons in an implication, or the most that are set.

use crate::generate::parts::{self, Pool};
use crate::generate::prng::Prng;
use crate::layout::settings::Settings;
use crate::layout::syntax::*;
use crate::layout::write;
use crate::naive::replace;

/// One member less than the most, the most or one more; one perhaps lacking on one side.
pub fn many_members(rng: &mut Prng, most: Settings) -> Vec<u8> {
    let pool = Pool::new(rng);
    let count = most.members as usize - 1 + rng.below(3);
    let mut set = Set::new();
    for i in 0..count {
        let number = Arith::Constant(i as i64);
        set.push(member(always(), operate(Operator::Plus, number, Arith::Scalar(0))));
    }
    let mut other = set.clone();
    rng.shuffle(&mut other);
    if rng.once_in(3) {
        let at = rng.below(other.len());
        other[at] = parts::member(rng, &pool);
    }
    let (c, evidence) = match rng.below(4) {
        0 => (skip(), flow_of(FlowRule::F1)),
        1 => (skip(), flow_of(FlowRule::F10)),
        2 => {
            let zero = Arith::Constant(0);
            let c = command(Form::AssignScalar(0, operate(Operator::Plus, zero, Arith::Scalar(1))));
            let r = replace::Replacement::Scalar(1, &Arith::Scalar(2));
            other = replace::in_set(&other, r);
            (c, flow_of(FlowRule::F3))
        }
        _ => {
            let inner = implication_of(ImplicationRule::S13);
            let evidence = FlowRule::F7 { m: set.clone(), set: inner, flow: flow_of(FlowRule::F1) };
            (skip(), flow_of(evidence))
        }
    };
    write::file_bytes(&c, &other, &set, &evidence)
}

/// Distinct comparisons 0 = x, 1 = x, ...
fn atoms(rng: &mut Prng, count: usize) -> Vec<Bool> {
    let mut out = Vec::new();
    for i in 0..count {
        out.push(compare(Comparison::Equal, Arith::Constant(i as i64), Arith::Scalar(3)));
    }
    rng.shuffle(&mut out);
    out
}

fn join(rng: &mut Prng, some: &[Bool], with_and: bool) -> Bool {
    let mut all = some.to_vec();
    while all.len() > 1 {
        let at = rng.below(all.len() - 1);
        let right = all.remove(at + 1);
        let left = all.remove(at);
        all.insert(at, if with_and { and(left, right) } else { or(left, right) });
    }
    all.pop().unwrap_or(Bool::Truth(with_and))
}

/// Two sides over so many comparisons, of which the left implies the right or
/// fails in one row.
fn two_sides(rng: &mut Prng, count: usize) -> (Bool, Bool) {
    let atoms = atoms(rng, count);
    // The left is true in one row.
    let mut row = Vec::new();
    for atom in &atoms {
        row.push(if rng.once_in(2) { atom.clone() } else { not(atom.clone()) });
    }
    let left = join(rng, &row, true);
    match rng.below(6) {
        // Both sides the same; a side without comparisons.
        0 => (left.clone(), left),
        1 => (Bool::Truth(false), left),
        2 => (left, Bool::Truth(true)),
        // The right is false in just that row.
        3 => (left.clone(), not(left)),
        // The right is one of the left's, or a few.
        4 => {
            rng.shuffle(&mut row);
            let few = 1 + rng.below(row.len());
            let with_and = rng.once_in(2);
            let right = join(rng, &row[..few], with_and);
            (left, right)
        }
        _ => {
            let right = join(rng, &atoms, false);
            (left, right)
        }
    }
}

/// Set rules 14 and 18, precondition rules 21 and 28 over one comparison less
/// than the most, up to two more.
pub fn many_comparisons(rng: &mut Prng, most: Settings) -> Vec<u8> {
    let count = most.comparisons as usize - 1 + rng.below(4);
    let (left, right) = two_sides(rng, count);
    let zero = Expression::Array(Array::Zero);
    let x = Expression::Arith(Arith::Scalar(5));
    let test = compare(Comparison::Less, Arith::Scalar(9), Arith::Constant(0));
    match rng.below(5) {
        0 => {
            // Antecedents that imply false.
            let phi = and(left.clone(), not(left));
            let mut m = vec![Member { phi, e: x.clone() }];
            // Perhaps a member that fails: the first of the two is reported.
            if rng.once_in(2) {
                m.push(Member { phi: Bool::Truth(rng.once_in(2)), e: x });
            }
            rng.shuffle(&mut m);
            let flow = flow_of(FlowRule::F1);
            let rule = FlowRule::F7 { m: m.clone(), set: implication_of(ImplicationRule::S14), flow };
            write::file_bytes(&skip(), &[], &m, &flow_of(rule))
        }
        1 | 2 => {
            let p = vec![Member { phi: right, e: x.clone() }];
            let q = vec![Member { phi: left, e: x }];
            let flow = flow_of(FlowRule::F1);
            let rule = FlowRule::F7 { m: q.clone(), set: implication_of(ImplicationRule::S18), flow };
            write::file_bytes(&skip(), &p, &q, &flow_of(rule))
        }
        3 => {
            let p = vec![Member { phi: right, e: zero.clone() }];
            let q = vec![Member { phi: left.clone(), e: zero }];
            let inner = before_of(BeforeRule::B22);
            let rule = FlowRule::F11 { before: before_of(BeforeRule::B28 { phi1: left, inner }) };
            write::file_bytes(&skip(), &p, &q, &flow_of(rule))
        }
        _ => {
            // While test do skip: φ0 is φ; both implications.
            let loop_ = command(Form::While(test, Box::new(skip())));
            let p = vec![Member { phi: right.clone(), e: zero.clone() }];
            let q = vec![Member { phi: left, e: zero }];
            let body = before_of(BeforeRule::B22);
            let rule = FlowRule::F11 { before: before_of(BeforeRule::B21 { phi0: right, body }) };
            write::file_bytes(&loop_, &p, &q, &flow_of(rule))
        }
    }
}
