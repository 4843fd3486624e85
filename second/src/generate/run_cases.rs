//! Runs for the runner: at the ends of the 64-bit range, of the indexes and
//! of the budget, and with two faults in one command, so that their order
//! tells (document 01, "Runner"); with a range tested before what has no
//! value outside it (request [1]).

use super::limits::{beyond, limit};
use super::parts::{self, Pool};
use super::prng::Prng;
use super::procedures::{add, without_contract};
use super::settings::often_standard;
use crate::layout::settings::Settings;
use crate::layout::syntax::*;
use crate::layout::words::bytes_of;
use crate::layout::write;
use crate::naive::run::{ARRAY_VALUES, SCALARS};

/// A run: a file, a budget, a store (scalars first) and settings.
#[derive(Clone, Debug)]
pub struct RunCase {
    pub bytes: Vec<u8>,
    pub budget: u64,
    pub store: Vec<i64>,
    pub settings: Settings,
}

/// The first scalars of a store for faulty commands.
const EDGES: [i64; 8] = [i64::MAX, i64::MIN, 63, 64, -1, 1, 0, 3_037_000_500];

fn edge_value(rng: &mut Prng) -> i64 {
    match rng.below(12) {
        0 => i64::MIN,
        1 => i64::MIN + 1,
        2 => i64::MAX,
        3 => i64::MAX - 1,
        4 => 3_037_000_499,
        5 => 3_037_000_500,
        6 => *rng.pick(&[63, 64, -1]),
        7 => *rng.pick(&[0, 62, 65]),
        8 => rng.next() as i64,
        _ => rng.below(9) as i64 - 2,
    }
}

/// One or a few procedures without contracts, or sixteen; the pool then has them to call.
fn bodies(rng: &mut Prng, pool: &mut Pool, faulty: bool) -> Vec<Procedure> {
    let count = *rng.pick(&[1, 1, 2, 2, 3, 3, 16]);
    let mut procedures = Vec::new();
    for _ in 0..count {
        let size = rng.below(3);
        let c = if faulty { faulty_command(rng, pool, size) } else { parts::random_command(rng, pool, size, &[]) };
        add(pool, &mut procedures, without_contract(c));
    }
    procedures
}

pub fn run_case(rng: &mut Prng) -> RunCase {
    let mut pool = Pool::new(rng);
    let faulty = rng.once_in(3);
    let procedures = if rng.once_in(2) { bodies(rng, &mut pool, faulty) } else { Vec::new() };
    let size = rng.below(4);
    let c = match rng.below(8) {
        // A `for` over skip, of known length.
        0 => command(Form::For(0, 1, Box::new(command(Form::Skip)))),
        _ if faulty => faulty_command(rng, &pool, size),
        _ => parts::random_command(rng, &pool, size, &[]),
    };
    let evidence = flow_of(FlowRule::F10);
    let mut bytes = bytes_of(&write::file_words_with(&procedures, &c, &[], &[], &evidence));
    // 1 to 7 and 16 go before 10.
    if rng.once_in(30) {
        bytes = if rng.once_in(2) { beyond(rng) } else { limit(rng) };
    }
    let mut store = vec![0i64; SCALARS + ARRAY_VALUES];
    let calm = rng.once_in(2);
    for value in store.iter_mut() {
        *value = if calm { rng.below(7) as i64 } else { edge_value(rng) };
    }
    if faulty {
        store[..EDGES.len()].copy_from_slice(&EDGES);
    }
    let budget = match rng.below(10) {
        0 => 0,
        1 => 1_000_000,
        2 => *rng.pick(&[1_000_001, u64::MAX]),
        3..=5 => rng.below(12) as u64,
        6 => rng.below(200) as u64,
        _ => 5_000,
    };
    let settings = often_standard(rng, &bytes);
    RunCase { bytes, budget, store, settings }
}

fn edge(rng: &mut Prng) -> Arith {
    Arith::Scalar(rng.below(EDGES.len()) as u32)
}

/// Sums, differences, products and indexes that often leave their range.
fn faulty_arith(rng: &mut Prng, size: usize) -> Arith {
    if size == 0 || rng.once_in(4) {
        return edge(rng);
    }
    if rng.once_in(3) {
        let array = faulty_array(rng, size - 1);
        let index = faulty_arith(rng, size - 1);
        return Arith::Select(Box::new(array), Box::new(index));
    }
    let o = *rng.pick(&[Operator::Plus, Operator::Minus, Operator::Times]);
    operate(o, faulty_arith(rng, size - 1), faulty_arith(rng, size - 1))
}

fn faulty_array(rng: &mut Prng, size: usize) -> Array {
    if size == 0 || rng.once_in(3) {
        return if rng.once_in(2) { Array::Zero } else { Array::Identifier(0) };
    }
    let array = faulty_array(rng, size - 1);
    let index = faulty_arith(rng, size - 1);
    let value = faulty_arith(rng, size - 1);
    Array::Update(Box::new(array), Box::new(index), Box::new(value))
}

fn comparison(rng: &mut Prng) -> Comparison {
    *rng.pick(&[Comparison::Equal, Comparison::Less, Comparison::LessOrEqual])
}

/// The sides joined in their order, nested to the left or to the right.
fn joined(rng: &mut Prng, by: fn(Bool, Bool) -> Bool, [a, b, c]: [Bool; 3]) -> Bool {
    if rng.once_in(2) {
        by(by(a, b), c)
    } else {
        by(a, by(b, c))
    }
}

/// The range of x, then a comparison that may have no value outside it, all joined by and; or that x is outside, by or.
/// Of the first scalars some are in the range, and of the others most would be refused.
fn guarded_bool(rng: &mut Prng) -> Bool {
    let x = edge(rng);
    let (low, value, high) = if rng.once_in(3) {
        (-1_000, operate(Operator::Times, x.clone(), x.clone()), 1_000)
    } else {
        let array = Array::Identifier(rng.below(2) as u32);
        (0, Arith::Select(Box::new(array), Box::new(x.clone())), 63)
    };
    let [low, high] = [low, high].map(Arith::Constant);
    let last = compare(comparison(rng), value, edge(rng));
    if rng.once_in(2) {
        let within = |a, b| compare(Comparison::LessOrEqual, a, b);
        joined(rng, and, [within(low, x.clone()), within(x, high), last])
    } else {
        let outside = |a, b| compare(Comparison::Less, a, b);
        joined(rng, or, [outside(x.clone(), low), outside(high, x), last])
    }
}

/// A guarded test alone; what it gave is seen in the store.
fn guarded_if(rng: &mut Prng) -> Form {
    let seen = command(Form::AssignScalar(EDGES.len() as u32, Arith::Constant(-1)));
    Form::If(guarded_bool(rng), Box::new(seen), Box::new(skip()))
}

fn faulty_bool(rng: &mut Prng, size: usize) -> Bool {
    if rng.once_in(2) {
        return guarded_bool(rng);
    }
    if size == 0 || rng.once_in(3) {
        let inner = size.min(2);
        return compare(comparison(rng), faulty_arith(rng, inner), faulty_arith(rng, inner));
    }
    match rng.below(5) {
        0 => Bool::Truth(rng.once_in(2)),
        1 => not(faulty_bool(rng, size - 1)),
        2 | 3 => and(faulty_bool(rng, size - 1), faulty_bool(rng, size - 1)),
        _ => or(faulty_bool(rng, size - 1), faulty_bool(rng, size - 1)),
    }
}

fn faulty_command(rng: &mut Prng, pool: &Pool, size: usize) -> Command {
    if !pool.callable.is_empty() && rng.once_in(3) {
        return call(rng.pick(&pool.callable).number);
    }
    let form = match rng.below(7) {
        0 => Form::Assert(faulty_bool(rng, 2)),
        1 => Form::AssignScalar(rng.below(8) as u32, faulty_arith(rng, 2)),
        2 => Form::AssignArray(rng.below(2) as u32, faulty_array(rng, 2)),
        3 | 4 if size == 0 => guarded_if(rng),
        _ if size == 0 => Form::Skip,
        3 => {
            let then = faulty_command(rng, pool, size - 1);
            let otherwise = faulty_command(rng, pool, size - 1);
            Form::If(faulty_bool(rng, 2), Box::new(then), Box::new(otherwise))
        }
        4 => Form::While(faulty_bool(rng, 2), Box::new(faulty_command(rng, pool, size - 1))),
        _ => {
            let first = faulty_command(rng, pool, size - 1);
            let second = faulty_command(rng, pool, size - 1);
            Form::Sequence(Box::new(first), Box::new(second))
        }
    };
    command(form)
}
