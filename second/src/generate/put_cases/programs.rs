//! Files whose commands are replaced: `for`s around calls and assignments, commands carried by rules 14 and 30, and commands so deep
//! that one more word within them may be too many.

use super::exact;
use crate::generate::parts::{self, Pool};
use crate::generate::prng::Prng;
use crate::generate::procedures::{add, without_contract};
use crate::layout::syntax::*;
use crate::layout::words::bytes_of;
use crate::layout::write::file_words_with;

/// A command, half of the time a `for`.
fn any_command(rng: &mut Prng, pool: &Pool) -> Command {
    let size = rng.below(4);
    if rng.once_in(2) {
        return parts::random_command(rng, pool, size, &[]);
    }
    if !pool.callable.is_empty() && rng.once_in(2) {
        return for_around_call(rng, pool);
    }
    let mut two = pool.scalars.clone();
    rng.shuffle(&mut two);
    let (q, m) = (two[0], two[1]);
    let body = parts::random_command(rng, pool, size, &[q, m]);
    command(Form::For(q, m, Box::new(body)))
}

/// Over scalars that the call doesn't modify.
fn for_around_call(rng: &mut Prng, pool: &Pool) -> Command {
    let called = rng.pick(&pool.callable);
    let mut two: Vec<u32> = (0..32).filter(|x| !called.modified.has_scalar(*x)).collect();
    rng.shuffle(&mut two);
    match two.as_slice() {
        [q, m, ..] => command(Form::For(*q, *m, Box::new(call(called.number)))),
        _ => call(called.number),
    }
}

/// A leaf that asks what the command modifies, for these sets; or a carried command, which the file is read with.
fn evidence(rng: &mut Prng, pool: &Pool, post: &Set) -> Box<Flow> {
    match rng.below(6) {
        0 => flow_of(FlowRule::F14 { d: any_command(rng, pool), flow: flow_of(FlowRule::F10) }),
        1 => {
            let inner = before_of(BeforeRule::B29);
            flow_of(FlowRule::F11 { before: before_of(BeforeRule::B30 { d: any_command(rng, pool), inner }) })
        }
        2 => {
            let first = flow_of(FlowRule::F14 { d: any_command(rng, pool), flow: flow_of(FlowRule::F10) });
            flow_of(FlowRule::F2 { m: post.clone(), first, second: flow_of(FlowRule::F10) })
        }
        _ if post.len() == 1 && rng.once_in(2) => flow_of(FlowRule::F11 { before: before_of(BeforeRule::B27) }),
        _ => flow_of(FlowRule::F10),
    }
}

/// A command with a set that is to stay as it is.
fn kept(rng: &mut Prng, pool: &Pool) -> Procedure {
    let set = if rng.once_in(3) { Set::new() } else { parts::set(rng, pool) };
    let evidence = *evidence(rng, pool, &set);
    Procedure { pre: set.clone(), post: set, evidence, ..without_contract(any_command(rng, pool)) }
}

/// A file with up to four procedures.
pub fn program(rng: &mut Prng) -> Vec<u8> {
    let mut pool = Pool::new(rng);
    let mut procedures = Vec::new();
    for _ in 0..*rng.pick(&[0, 0, 1, 2, 2, 4]) {
        let procedure = kept(rng, &pool);
        add(&mut pool, &mut procedures, procedure);
    }
    let main = kept(rng, &pool);
    bytes_of(&file_words_with(&procedures, &main.command, &main.pre, &main.post, &main.evidence))
}

/// A simple command within so many others that a chain of its length reaches this most depth, or ends a little before or past it.
/// The command stands in the main program, in a procedure or is carried.
pub fn deep(rng: &mut Prng, most: usize) -> Vec<u8> {
    let pool = Pool::new(rng);
    // a carried command has depth 2 at least
    let depth = 2 + rng.below(most - 3);
    let words = most - depth + rng.below(4);
    let inner = exact::simple(rng, &pool, words);
    match rng.below(3) {
        0 => file_of(&[], &surrounded(rng, inner, depth - 1), flow_of(FlowRule::F10)),
        1 => file_of(&[without_contract(surrounded(rng, inner, depth - 1))], &call(0), flow_of(FlowRule::F10)),
        _ => {
            let d = surrounded(rng, inner, depth - 2);
            file_of(&[], &skip(), flow_of(FlowRule::F14 { d, flow: flow_of(FlowRule::F10) }))
        }
    }
}

fn file_of(procedures: &[Procedure], command: &Command, evidence: Box<Flow>) -> Vec<u8> {
    bytes_of(&file_words_with(procedures, command, &[], &[], &evidence))
}

/// So many commands around a command.
fn surrounded(rng: &mut Prng, inner: Command, levels: usize) -> Command {
    (0..levels).fold(inner, |inner, _| match rng.below(4) {
        0 => sequence(inner, skip()),
        1 => sequence(skip(), inner),
        2 => if_else(always(), skip(), inner),
        _ => command(Form::While(always(), Box::new(inner))),
    })
}
