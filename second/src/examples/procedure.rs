//! The mailbox guard with one procedure for both ways (request [3]), good and faulty: the trees from which the texts and
//! files of `examples/` are made.

use super::example::*;
use super::guard::{guarded_evidence, only, transfer_evidence, Way, IN_0_RDY, TO_0, TO_1};
use crate::layout::syntax::*;
use crate::naive::replace::{self, Replacement};
use crate::view::show::Names;

/// The mailbox as in guard.rs, and what the procedure works on: in RDY and DAT, out FULL and OUT; D is its own.
const NAMES: Names = Names {
    scalars: &[
        "IN_0_RDY", "IN_0_DAT", "OUT_0_RDY", "OUT_0_DAT", "IN_1_RDY", "IN_1_DAT", "OUT_1_RDY", "OUT_1_DAT", "RDY", "DAT", "FULL",
        "OUT", "D",
    ],
    arrays: &[],
};

const WORK: Way = Way { in_rdy: 8, in_dat: 9, out_rdy: 10, out_dat: 11, data: 12 };

fn copy(to: u32, from: u32) -> Command {
    assign(to, Arith::Scalar(from))
}

/// Before the call: the way's registers for the procedure's.
fn loads(way: Way) -> [(u32, u32); 4] {
    [(WORK.in_rdy, way.in_rdy), (WORK.in_dat, way.in_dat), (WORK.out_rdy, way.out_rdy), (WORK.out_dat, way.out_dat)]
}

/// After it: back again.
fn stores(way: Way) -> [(u32, u32); 3] {
    [(way.in_rdy, WORK.in_rdy), (way.out_rdy, WORK.out_rdy), (way.out_dat, WORK.out_dat)]
}

/// One way: load, call, store.
fn channel(way: Way) -> Command {
    let [a, b, c] = stores(way).map(|(to, from)| copy(to, from));
    let after = sequence(call(0), sequence(a, sequence(b, c)));
    loads(way).into_iter().rev().fold(after, |rest, (to, from)| sequence(copy(to, from), rest))
}

/// (P, the way, Q), Q the last store's left side: M before each load is what the call asks for, with the loads put in.
fn channel_evidence(way: Way) -> Box<Flow> {
    let out = only(WORK.out_dat);
    let last = by_sequence(out.clone(), flow_of(FlowRule::F10), flow_of(FlowRule::F3));
    let after = by_sequence(out.clone(), flow_of(FlowRule::F10), last);
    let evidence = by_sequence(out, flow_of(FlowRule::F31), after);
    before_loads(way, WORK.contract(), evidence)
}

/// Evidence of the loads and what follows them, from evidence of (M, what follows them, Q).
fn before_loads(way: Way, mut m: Set, mut evidence: Box<Flow>) -> Box<Flow> {
    for (to, from) in loads(way).into_iter().rev() {
        let before = replace::in_set(&m, Replacement::Scalar(to, &Arith::Scalar(from)));
        evidence = by_sequence(m, flow_of(FlowRule::F3), evidence);
        m = before;
    }
    evidence
}

fn step() -> Command {
    sequence(channel(TO_1), channel(TO_0))
}

/// The one `if` of the guard, for whatever stands in the procedure's scalars.
fn transfer() -> Procedure {
    let pre = WORK.contract();
    let evidence = *transfer_evidence(WORK, &pre);
    Procedure { command: WORK.transfer(WORK.data), pre, post: only(WORK.out_dat), evidence }
}

/// The whole contract of figure 3 (a): each output by itself, the other way by rule 10.
fn both(name: &'static str, about: &'static str, procedure: Procedure) -> Example {
    let (s, t) = (TO_0.contract(), TO_1.contract());
    let (s2, t2) = (only(TO_0.out_dat), only(TO_1.out_dat));
    let (pre, post) = ([s.clone(), t.clone()].concat(), [s2.clone(), t2.clone()].concat());
    let first = by_sequence(s.clone(), flow_of(FlowRule::F10), channel_evidence(TO_0));
    let second = by_sequence(t2.clone(), channel_evidence(TO_1), flow_of(FlowRule::F10));
    let evidence = flow_of(FlowRule::F9 { s, s2, t, t2, first, second });
    Example { name, about, names: NAMES, procedures: vec![procedure], program: step(), pre, post, evidence }
}

fn good() -> Example {
    let about = "MACHINE_STEP (paper 000, figure 2) whose two ways share procedure 0, with the whole contract of figure 3 (a).\n\
        Accepted.";
    both("guard-procedure", about, transfer())
}

/// The procedure sends what the call before left in D, and then takes the character.
fn late() -> Example {
    let mut procedure = transfer();
    let ready = sequence(assign(WORK.in_rdy, Arith::Constant(0)), assign(WORK.out_rdy, Arith::Constant(1)));
    let taken = sequence(copy(WORK.data, WORK.in_dat), ready);
    procedure.command = if_else(WORK.test(), sequence(copy(WORK.out_dat, WORK.data), taken), skip());
    let then = by_sequence(only(WORK.out_dat), flow_of(FlowRule::F3), flow_of(FlowRule::F10));
    procedure.evidence = *guarded_evidence(WORK, &procedure.pre, then);
    let about = "FAULTY: guard-procedure whose procedure sends D before it has taken the character.\n\
        Refused 8 at [0:1.2.1.1]: the assignment needs D, the goal has DAT.";
    both("guard-procedure-late", about, procedure)
}

/// Another contract: what client 0 sees of its own ready flag. The procedure's contract says nothing of RDY.
fn ready() -> Example {
    let set = only(WORK.in_rdy);
    let after = by_sequence(only(IN_0_RDY), flow_of(FlowRule::F3), flow_of(FlowRule::F10));
    let loaded = before_loads(TO_1, set.clone(), by_sequence(set, flow_of(FlowRule::F31), after));
    let evidence = by_sequence(only(IN_0_RDY), loaded, flow_of(FlowRule::F10));
    let about = "FAULTY: guard-procedure under the contract that IN_0_RDY tells of nothing but itself.\n\
        Refused 8 at [1.1.2.2.2.2.1]: rule 31 has the procedure's contract, and that is another one.";
    let (pre, post) = (only(IN_0_RDY), only(IN_0_RDY));
    let name = "guard-procedure-ready";
    Example { name, about, names: NAMES, procedures: vec![transfer()], program: step(), pre, post, evidence }
}

pub fn examples() -> Vec<Example> {
    vec![good(), late(), ready()]
}
