//! The mailbox guard of paper 000, figures 2 and 3, as certificates, good and faulty: the trees from which the texts
//! and files of `examples/` are made.

use super::example::*;
use crate::layout::syntax::*;
use crate::view::show::Names;

/// The figure's variables by scalar number; a flag is TRUE when its scalar is 1.
pub const NAMES: Names = Names {
    scalars: &[
        "IN_0_RDY", "IN_0_DAT", "OUT_0_RDY", "OUT_0_DAT", "IN_1_RDY", "IN_1_DAT", "OUT_1_RDY", "OUT_1_DAT", "D_0", "D_1",
    ],
    arrays: &[],
};

pub const IN_0_RDY: u32 = 0;
pub const IN_0_DAT: u32 = 1;
pub const OUT_0_RDY: u32 = 2;
pub const OUT_0_DAT: u32 = 3;
pub const IN_1_RDY: u32 = 4;
pub const IN_1_DAT: u32 = 5;
pub const OUT_1_RDY: u32 = 6;
pub const OUT_1_DAT: u32 = 7;
pub const D_0: u32 = 8;
pub const D_1: u32 = 9;

/// One way through the mailbox: the input, the character on its way, the output.
#[derive(Clone, Copy)]
pub struct Way {
    pub in_rdy: u32,
    pub in_dat: u32,
    pub data: u32,
    pub out_rdy: u32,
    pub out_dat: u32,
}

/// From client 0 to client 1, and back.
pub const TO_1: Way = Way { in_rdy: IN_0_RDY, in_dat: IN_0_DAT, data: D_0, out_rdy: OUT_1_RDY, out_dat: OUT_1_DAT };
pub const TO_0: Way = Way { in_rdy: IN_1_RDY, in_dat: IN_1_DAT, data: D_1, out_rdy: OUT_0_RDY, out_dat: OUT_0_DAT };

fn scalar(x: u32) -> Arith {
    Arith::Scalar(x)
}

/// {true ⇒ x}.
pub fn only(x: u32) -> Set {
    agree![scalar(x)]
}

impl Way {
    pub fn test(self) -> Bool {
        and(flag(self.in_rdy), not(flag(self.out_rdy)))
    }

    /// One `if` of figure 2; `sent` is what is put in the output.
    pub fn transfer(self, sent: u32) -> Command {
        let ready = assign(self.out_rdy, Arith::Constant(1));
        let put = assign(self.out_dat, Arith::Scalar(sent));
        let taken = assign(self.in_rdy, Arith::Constant(0));
        let take = assign(self.data, Arith::Scalar(self.in_dat));
        let then = sequence(take, sequence(taken, sequence(put, ready)));
        if_else(self.test(), then, skip())
    }

    /// Figure 3: what the output derives from.
    pub fn contract(self) -> Set {
        let passes = member(self.test(), scalar(self.in_dat));
        let stays = member(or(not(flag(self.in_rdy)), flag(self.out_rdy)), scalar(self.out_dat));
        let [ready, free] = self.flags();
        vec![passes, stays, ready, free]
    }

    fn flags(self) -> [Member; 2] {
        [self.in_rdy, self.out_rdy].map(|x| member(always(), flag(x)))
    }

    /// What rule 6 makes of {true ⇒ in_dat} and {true ⇒ out_dat}: Θ0 of section 3.2.
    fn raw(self) -> Set {
        vec![
            member(and(always(), self.test()), scalar(self.in_dat)),
            member(and(always(), not(self.test())), scalar(self.out_dat)),
            member(always(), self.test()),
        ]
    }
}

/// ({true ⇒ in_dat}, the four assignments, {true ⇒ out_dat}): figure 3 (b), lines 2 to 5.
fn then_evidence(way: Way) -> Box<Flow> {
    let last = by_sequence(only(way.out_dat), flow_of(FlowRule::F3), flow_of(FlowRule::F10));
    let middle = by_sequence(only(way.data), flow_of(FlowRule::F10), last);
    by_sequence(only(way.data), flow_of(FlowRule::F3), middle)
}

/// (Θ0, the if, {true ⇒ out_dat}), with evidence of its then part.
fn if_evidence(way: Way, then: Box<Flow>) -> Box<Flow> {
    flow_of(FlowRule::F6 {
        s: only(way.in_dat),
        t: only(way.out_dat),
        phi0: always(),
        then,
        otherwise: flow_of(FlowRule::F1),
        before: before_of(BeforeRule::B29),
    })
}

/// The first two members of P imply those of Θ0, each by rule 18.
fn antecedents_evidence(p: &[Member], raw: &[Member]) -> Box<Implication> {
    implication_of(ImplicationRule::S16 {
        s: p[..1].to_vec(),
        s2: raw[..1].to_vec(),
        t: p[1..2].to_vec(),
        t2: raw[1..2].to_vec(),
        first: implication_of(ImplicationRule::S18),
        second: implication_of(ImplicationRule::S18),
    })
}

/// The two flags imply the test: rule 19 for ¬, then for ∧.
fn test_evidence(way: Way) -> Box<Implication> {
    let [ready, free] = way.flags();
    let denied = member(always(), not(flag(way.out_rdy)));
    implication_of(ImplicationRule::S17 {
        s: vec![free],
        s2: vec![denied.clone()],
        t: vec![ready, denied],
        first: implication_of(ImplicationRule::S19),
        second: implication_of(ImplicationRule::S19),
    })
}

/// (P, Θ0), P the contract or a faulty one with four members.
fn set_evidence(way: Way, p: &Set) -> Box<Implication> {
    let raw = way.raw();
    implication_of(ImplicationRule::S16 {
        s: p[..2].to_vec(),
        s2: raw[..2].to_vec(),
        t: p[2..].to_vec(),
        t2: raw[2..].to_vec(),
        first: antecedents_evidence(p, &raw),
        second: test_evidence(way),
    })
}

/// (P, the if, {true ⇒ out_dat}).
pub fn transfer_evidence(way: Way, p: &Set) -> Box<Flow> {
    guarded_evidence(way, p, then_evidence(way))
}

/// The same with other evidence of the then part.
pub fn guarded_evidence(way: Way, p: &Set, then: Box<Flow>) -> Box<Flow> {
    flow_of(FlowRule::F7 { m: way.raw(), set: set_evidence(way, p), flow: if_evidence(way, then) })
}

/// Output 0: P goes through the first if by rule 10, as paper 000 says below figure 5.
fn output_0_evidence(p: &Set) -> Box<Flow> {
    by_sequence(p.clone(), flow_of(FlowRule::F10), transfer_evidence(TO_0, p))
}

/// Output 1: the second if does not modify it.
fn output_1_evidence() -> Box<Flow> {
    by_sequence(only(OUT_1_DAT), transfer_evidence(TO_1, &TO_1.contract()), flow_of(FlowRule::F10))
}

/// MACHINE_STEP of figure 2.
fn machine_step() -> Command {
    sequence(TO_1.transfer(D_0), TO_0.transfer(D_1))
}

fn good(name: &'static str, about: &'static str, pre: Set, post: Set, evidence: Box<Flow>) -> Example {
    Example { name, about, names: NAMES, procedures: Vec::new(), program: machine_step(), pre, post, evidence }
}

fn output_0() -> Example {
    let pre = TO_0.contract();
    let about = "MACHINE_STEP (paper 000, figure 2; a flag is TRUE when its scalar is 1) and what OUT_0_DAT derives from (figure 3).\nAccepted.";
    let evidence = output_0_evidence(&pre);
    good("guard-output-0", about, pre, only(OUT_0_DAT), evidence)
}

fn output_1() -> Example {
    let about = "MACHINE_STEP (paper 000, figure 2; a flag is TRUE when its scalar is 1) and what OUT_1_DAT derives from (figure 3).\nAccepted.";
    good("guard-output-1", about, TO_1.contract(), only(OUT_1_DAT), output_1_evidence())
}

fn both() -> Example {
    let (s, t) = (TO_0.contract(), TO_1.contract());
    let (s2, t2) = (only(OUT_0_DAT), only(OUT_1_DAT));
    let about = "MACHINE_STEP (paper 000, figure 2; a flag is TRUE when its scalar is 1) with the whole contract of figure 3 (a), both outputs.\nAccepted.";
    let (pre, post) = ([s.clone(), t.clone()].concat(), [s2.clone(), t2.clone()].concat());
    let first = output_0_evidence(&s);
    let second = output_1_evidence();
    good("guard-both", about, pre, post, flow_of(FlowRule::F9 { s, s2, t, t2, first, second }))
}

/// The same as a generator writes it that tidies true ∧ φ to φ (request [2]).
fn both_tidied() -> Example {
    let about = "guard-both as a generator writes it that tidies true ∧ φ to φ in every antecedent.\nAccepted.";
    Example { name: "guard-tidied", about, ..tidied(both()) }
}

/// The trap of rule 6: nobody asks that the two runs agree on the test.
fn without_the_test() -> Example {
    let pre = TO_0.contract()[..2].to_vec();
    let raw = TO_0.raw()[..2].to_vec();
    let set = antecedents_evidence(&pre, &raw);
    let transfer = flow_of(FlowRule::F7 { m: raw, set, flow: if_evidence(TO_0, then_evidence(TO_0)) });
    let evidence = by_sequence(pre.clone(), flow_of(FlowRule::F10), transfer);
    let about = "FAULTY: guard-output-0 without the two flags in P, so that φ0 ⇒ B is missing in rule 6.\n\
        Refused 8 at [1.2.2]: whether the if was taken can be seen in OUT_0_DAT.";
    good("guard-without-test", about, pre, only(OUT_0_DAT), evidence)
}

/// The trap of rule 18: the contract has `and` for `or`, so that it demands too little.
fn rule_18_turned() -> Example {
    let mut pre = TO_0.contract();
    pre[1].phi = and(not(flag(IN_1_RDY)), flag(OUT_0_RDY));
    let evidence = output_0_evidence(&pre);
    let about = "FAULTY: guard-output-0 with `and` for `or` in P's second member.\n\
        Refused 8 at [1.2.1.1.2]: Q's antecedent does not imply P's; only the other way round holds.";
    good("guard-rule-18", about, pre, only(OUT_0_DAT), evidence)
}

/// Another program: the second if sends client 0's character back to client 0's own output.
fn crossed() -> Example {
    let pre = TO_0.contract();
    let evidence = output_0_evidence(&pre);
    let about = "FAULTY: guard-output-0 for a program that puts D_0, not D_1, in OUT_0_DAT.\n\
        Refused 8 at [1.2.2.1.2.2.1]: the assignment needs D_0, the evidence has D_1.";
    let program = sequence(TO_1.transfer(D_0), TO_0.transfer(D_0));
    Example { name: "guard-crossed", about, names: NAMES, procedures: Vec::new(), program, pre, post: only(OUT_0_DAT), evidence }
}

pub fn examples() -> Vec<Example> {
    vec![output_0(), output_1(), both(), both_tidied(), without_the_test(), rule_18_turned(), crossed()]
}
