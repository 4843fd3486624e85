//! Necessary preconditions, rules 20 to 30 and 32.

use super::{nodes, Maker, MANY_NODES};
use crate::layout::settings::STANDARD;
use crate::layout::syntax::*;
use crate::naive::implies::{implies, Verdict};
use crate::naive::modified::{modified_by, of_bool};
use crate::naive::replace::{self, Replacement};

impl Maker<'_> {
    /// A necessary precondition of φ'.
    pub fn before(&mut self, c: &Command, phi2: &Bool, detours: usize) -> Option<(Bool, Box<Before>)> {
        self.spend()?;
        if nodes(phi2) > MANY_NODES {
            return Some((Bool::Truth(true), before_of(BeforeRule::B29)));
        }
        if detours > 0 {
            match self.rng.below(8) {
                0 => return Some((Bool::Truth(true), before_of(BeforeRule::B29))),
                1 => {
                    let (phi1, inner) = self.before(c, phi2, detours - 1)?;
                    let phi = self.weaker(&phi1);
                    if implies(&phi1, &phi, STANDARD) == Verdict::Holds || self.slip() {
                        return Some((phi, before_of(BeforeRule::B28 { phi1, inner })));
                    }
                }
                2 | 3 if !of_bool(phi2).meets(&modified_by(c, self.procedures)) || self.slip() => {
                    return Some((phi2.clone(), before_of(BeforeRule::B27)));
                }
                _ => {}
            }
        }
        self.before_by_command(c, phi2, detours)
    }

    fn before_by_command(&mut self, c: &Command, phi2: &Bool, detours: usize) -> Option<(Bool, Box<Before>)> {
        match &c.form {
            Form::Skip => Some((phi2.clone(), before_of(BeforeRule::B22))),
            Form::Sequence(c1, c2) => {
                let (phi1, second) = self.before(c2, phi2, detours)?;
                let (phi, first) = self.before(c1, &phi1, detours)?;
                Some((phi, before_of(BeforeRule::B23 { phi1, first, second })))
            }
            Form::AssignScalar(x, a) => {
                let phi = replace::in_bool(phi2, Replacement::Scalar(*x, a));
                Some((phi, before_of(BeforeRule::B24)))
            }
            Form::AssignArray(h, a) => {
                let phi = replace::in_bool(phi2, Replacement::Array(*h, a));
                Some((phi, before_of(BeforeRule::B25)))
            }
            Form::Assert(b) => {
                Some((and(phi2.clone(), b.clone()), before_of(BeforeRule::B26)))
            }
            Form::If(b, c1, c2) => {
                let (left, then) = self.before(c1, phi2, detours)?;
                let (right, otherwise) = self.before(c2, phi2, detours)?;
                let phi = or(and(left.clone(), b.clone()), and(right.clone(), not(b.clone())));
                Some((phi, before_of(BeforeRule::B20 { phi1: left, phi2: right, then, otherwise })))
            }
            Form::While(b, body) => self.before_while(b, body, phi2, detours),
            Form::For(x, m, body) => {
                let d = self.meaning(*x, *m, body);
                let (phi, inner) = self.before(&d, phi2, detours)?;
                Some((phi, before_of(BeforeRule::B30 { d, inner })))
            }
            Form::Call(p) => self.before_call(*p, phi2, detours),
        }
    }

    /// Rule 21; rule 29 where the implications that it asks for fail.
    fn before_while(&mut self, b: &Bool, body: &Command, phi2: &Bool, detours: usize) -> Option<(Bool, Box<Before>)> {
        let phi = match self.rng.below(4) {
            0 => Bool::Truth(true),
            1 => phi2.clone(),
            2 => or(b.clone(), phi2.clone()),
            _ => or(phi2.clone(), b.clone()),
        };
        let (phi0, inner) = self.before(body, &phi, detours)?;
        let holds = |a: &Bool| implies(a, &phi, STANDARD) == Verdict::Holds;
        let both = holds(&and(phi0.clone(), b.clone()))
            && holds(&and(phi2.clone(), not(b.clone())));
        if !both && !self.slip() {
            return Some((Bool::Truth(true), before_of(BeforeRule::B29)));
        }
        Some((phi, before_of(BeforeRule::B21 { phi0, body: inner })))
    }
}
