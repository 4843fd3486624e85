//! The booleans of a file, each with where it stands.

use crate::layout::syntax::*;

/// Where a boolean stands, by how it is compared (request [2]).
#[derive(Clone, Copy, PartialEq, Eq, Debug)]
pub enum Stands {
    /// An antecedent or a carried assertion: compared plain.
    Antecedent,
    /// An antecedent of T or S' in rule 17: "without" is by words.
    Without,
    /// A consequent: compared by words.
    Consequent,
    /// A test of the program or of a procedure.
    Test,
    /// A test of a command that rule 14 or 30 carries, which is compared by words.
    Carried,
}

/// What is done to each boolean.
pub struct Booleans<'a> {
    pub change: &'a mut dyn FnMut(Stands, &mut Bool),
}

impl Booleans<'_> {
    pub fn file(&mut self, file: &mut File) {
        for p in &mut file.procedures {
            self.four(&mut p.command, &mut p.pre, &mut p.post, &mut p.evidence);
        }
        self.four(&mut file.command, &mut file.pre, &mut file.post, &mut file.evidence);
    }

    fn four(&mut self, c: &mut Command, pre: &mut Set, post: &mut Set, evidence: &mut Flow) {
        self.command(Stands::Test, c);
        self.sets([pre, post]);
        self.flow(evidence);
    }

    fn command(&mut self, stands: Stands, c: &mut Command) {
        match &mut c.form {
            Form::Sequence(first, second) => {
                self.command(stands, first);
                self.command(stands, second);
            }
            Form::Assert(b) => (self.change)(stands, b),
            Form::If(b, then, otherwise) => {
                (self.change)(stands, b);
                self.command(stands, then);
                self.command(stands, otherwise);
            }
            Form::While(b, body) => {
                (self.change)(stands, b);
                self.command(stands, body);
            }
            Form::For(_, _, body) => self.command(stands, body),
            Form::Skip | Form::AssignScalar(..) | Form::AssignArray(..) | Form::Call(_) => {}
        }
    }

    fn set(&mut self, stands: Stands, set: &mut Set) {
        for member in set {
            (self.change)(stands, &mut member.phi);
            if let Expression::Bool(b) = &mut member.e {
                (self.change)(Stands::Consequent, b);
            }
        }
    }

    fn sets<const N: usize>(&mut self, sets: [&mut Set; N]) {
        for set in sets {
            self.set(Stands::Antecedent, set);
        }
    }

    fn assertions<const N: usize>(&mut self, assertions: [&mut Bool; N]) {
        for b in assertions {
            (self.change)(Stands::Antecedent, b);
        }
    }

    fn flow(&mut self, evidence: &mut Flow) {
        match &mut evidence.rule {
            FlowRule::F2 { m, first, second } => {
                self.sets([m]);
                self.flows([first, second]);
            }
            FlowRule::F6 { s, t, phi0, then, otherwise, before } => {
                self.sets([s, t]);
                self.assertions([phi0]);
                self.flows([then, otherwise]);
                self.before(before);
            }
            FlowRule::F7 { m, set, flow } | FlowRule::F8 { m, flow, set } => {
                self.sets([m]);
                self.implication(set);
                self.flow(flow);
            }
            FlowRule::F9 { s, s2, t, t2, first, second } => {
                self.sets([s, s2, t, t2]);
                self.flows([first, second]);
            }
            FlowRule::F11 { before } => self.before(before),
            FlowRule::F12 { s, s2, phi, phi2, flow, before } => {
                self.sets([s, s2]);
                self.assertions([phi, phi2]);
                self.flow(flow);
                self.before(before);
            }
            FlowRule::F13 { body } => self.flow(body),
            FlowRule::F14 { d, flow } => {
                self.command(Stands::Carried, d);
                self.flow(flow);
            }
            FlowRule::F1 | FlowRule::F3 | FlowRule::F4 | FlowRule::F5 | FlowRule::F10 | FlowRule::F31 => {}
        }
    }

    fn flows<const N: usize>(&mut self, all: [&mut Flow; N]) {
        for evidence in all {
            self.flow(evidence);
        }
    }

    fn implication(&mut self, evidence: &mut Implication) {
        match &mut evidence.rule {
            ImplicationRule::S16 { s, s2, t, t2, first, second } => {
                self.sets([s, s2, t, t2]);
                self.implication(first);
                self.implication(second);
            }
            ImplicationRule::S17 { s, s2, t, first, second } => {
                self.sets([s]);
                self.set(Stands::Without, s2);
                self.set(Stands::Without, t);
                self.implication(first);
                self.implication(second);
            }
            _ => {}
        }
    }

    fn before(&mut self, evidence: &mut Before) {
        match &mut evidence.rule {
            BeforeRule::B20 { phi1, phi2, then, otherwise } => {
                self.assertions([phi1, phi2]);
                self.before(then);
                self.before(otherwise);
            }
            BeforeRule::B21 { phi0: phi, body: inner } | BeforeRule::B28 { phi1: phi, inner } => {
                self.assertions([phi]);
                self.before(inner);
            }
            BeforeRule::B23 { phi1, first, second } => {
                self.assertions([phi1]);
                self.before(first);
                self.before(second);
            }
            BeforeRule::B30 { d, inner } => {
                self.command(Stands::Carried, d);
                self.before(inner);
            }
            BeforeRule::B32 { inner } => self.before(inner),
            _ => {}
        }
    }
}
