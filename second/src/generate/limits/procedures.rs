//! Request [3] at its limits: sixteen procedures that each call the one below twice, calls that may not be, and tables that
//! are none.

use crate::generate::mutate::{any_word, mend};
use crate::generate::prng::Prng;
use crate::generate::procedures::without_contract;
use crate::layout::syntax::*;
use crate::layout::words::{bytes_of, pack};
use crate::layout::write::{file_words_with, flow};

/// x0 is an output, x1 what it comes from.
fn kept() -> Set {
    vec![member(always(), Arith::Scalar(1))]
}

fn twice(p: u32) -> Command {
    sequence(call(p), call(p))
}

/// A nest of so many procedures: the first has this body, each other calls the one below twice, by rules 2 and 31.
fn nest_of(count: u32, body: Command) -> Vec<Procedure> {
    let evidence = *flow_of(FlowRule::F10);
    let mut all = vec![Procedure { command: body, pre: kept(), post: kept(), evidence }];
    for p in 0..count - 1 {
        let (first, second) = (flow_of(FlowRule::F31), flow_of(FlowRule::F31));
        let evidence = *flow_of(FlowRule::F2 { m: kept(), first, second });
        all.push(Procedure { command: twice(p), pre: kept(), post: kept(), evidence });
    }
    all
}

/// x3 is not modified through all the calls: rule 32 down to the body on the left, rule 27 on the right.
fn down(levels: u32) -> Box<Before> {
    if levels == 0 {
        return before_of(BeforeRule::B27);
    }
    let (first, second) = (down(levels - 1), before_of(BeforeRule::B27));
    let inner = before_of(BeforeRule::B23 { phi1: third(), first, second });
    before_of(BeforeRule::B32 { inner })
}

fn third() -> Bool {
    compare(Comparison::Equal, Arith::Scalar(3), Arith::Constant(0))
}

/// A nest of sixteen or fewer, its main program under some rule that looks through all of it; the body may modify what the
/// rule asks about.
pub fn nest(rng: &mut Prng) -> Vec<u8> {
    let count = *rng.pick(&[16, 16, 16, 2, 3]);
    let assigned = *rng.pick(&[0, 0, 0, 1, 3, 4]);
    let body = command(Form::AssignScalar(assigned, Arith::Scalar(1)));
    let procedures = nest_of(count, body);
    let top = count - 1;
    let one = vec![member(third(), Arith::Scalar(1))];
    let words = match rng.below(4) {
        0 => file_words_with(&procedures, &call(top), &kept(), &kept(), &flow_of(FlowRule::F31)),
        1 => file_words_with(&procedures, &twice(top), &kept(), &kept(), &flow_of(FlowRule::F10)),
        2 => {
            let evidence = flow_of(FlowRule::F11 { before: down(top) });
            file_words_with(&procedures, &call(top), &one, &one, &evidence)
        }
        _ => {
            // 7, if the body modifies x3 or x4
            let around = command(Form::For(3, 4, Box::new(call(top))));
            file_words_with(&procedures, &around, &kept(), &kept(), &flow_of(FlowRule::F10))
        }
    };
    bytes_of(&words)
}

/// Where calls stand: in a body or the main program, within other commands, or carried by rules 14 and 30.
fn around(rng: &mut Prng, called: u32) -> (Command, Box<Flow>) {
    let inner = call(called);
    let c = match rng.below(6) {
        0 => sequence(skip(), inner),
        1 => if_else(always(), skip(), inner),
        2 => command(Form::While(Bool::Truth(false), Box::new(inner))),
        3 => command(Form::For(5, 6, Box::new(inner))),
        4 => return (skip(), flow_of(FlowRule::F14 { d: sequence(inner, skip()), flow: flow_of(FlowRule::F10) })),
        _ => inner,
    };
    (c, flow_of(FlowRule::F10))
}

/// The same carried by rule 30, for one written member.
fn carried_by_30(called: u32) -> Procedure {
    let before = before_of(BeforeRule::B30 { d: call(called), inner: before_of(BeforeRule::B29) });
    let evidence = *flow_of(FlowRule::F11 { before });
    Procedure { command: skip(), pre: kept(), post: kept(), evidence }
}

/// A number for procedure i to call, now and then one that it may not call; none where there is no other.
fn number(rng: &mut Prng, i: u32) -> Option<u32> {
    match rng.below(12) {
        0 => Some(i),
        1 => Some(i + 1 + rng.below(3) as u32),
        2 => Some(*rng.pick(&[16, 31, 32, 1 << 25, (1 << 26) - 1])),
        _ if i == 0 => None,
        _ => Some(rng.below(i as usize) as u32),
    }
}

/// A procedure that calls; or an assignment, or a `for` that is wrong half of the time (16 goes before 7).
fn caller(rng: &mut Prng, i: u32) -> Procedure {
    if rng.once_in(10) {
        return without_contract(command(Form::For(7, rng.below(2) as u32 + 7, Box::new(skip()))));
    }
    match number(rng, i) {
        None => without_contract(command(Form::AssignScalar(rng.below(7) as u32, Arith::Scalar(1)))),
        Some(called) if rng.once_in(8) => carried_by_30(called),
        Some(called) => {
            let (c, evidence) = around(rng, called);
            Procedure { evidence: *evidence, ..without_contract(c) }
        }
    }
}

/// A few procedures and a main program that call each other, as they may and as they may not.
pub fn calls(rng: &mut Prng) -> Vec<u8> {
    let count = rng.below(4) as u32;
    let mut procedures: Vec<Procedure> = (0..=count).map(|i| caller(rng, i)).collect();
    let main = procedures.pop().expect("one at least");
    let mut words = file_words_with(&procedures, &main.command, &main.pre, &main.post, &main.evidence);
    // 3, 5 and 6 go before 16
    match rng.below(10) {
        0 => words.push(any_word(rng)),
        1 => words.truncate(words.len() - 1),
        2 => {
            let at = 1 + rng.below(words.len() - 1);
            words[at] = any_word(rng);
        }
        _ => {}
    }
    mend(&mut words);
    bytes_of(&words)
}

/// 62 with a payload from 0 to 18 before some procedures, twice, or where something else is due.
pub fn tables(rng: &mut Prng) -> Vec<u8> {
    let count = *rng.pick(&[1, 1, 2, 3, 15, 16, 16, 17]);
    let said = if rng.once_in(2) { count } else { *rng.pick(&[0, 1, 2, 15, 16, 17, 18, 64, 1 << 25]) };
    let mut words = vec![0, pack(62, said)];
    for _ in 0..count + 1 {
        words.extend([pack(24, 0), pack(32, 0), pack(32, 0)]);
        flow(&flow_of(FlowRule::F1), &mut words);
    }
    match rng.below(6) {
        0 => words.insert(1, pack(62, count)),
        1 => {
            let at = 1 + rng.below(words.len());
            words.insert(at, pack(62, 1 + rng.below(2) as u32));
        }
        2 => {
            let at = 1 + rng.below(words.len() - 1);
            words[at] = pack(62, 1);
        }
        3 => words.truncate(1 + rng.below(words.len())),
        _ => {}
    }
    mend(&mut words);
    bytes_of(&words)
}
