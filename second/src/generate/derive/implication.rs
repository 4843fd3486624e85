//! Implication between sets, rules 13 to 19.

use super::Maker;
use crate::generate::parts;
use crate::layout::settings::STANDARD;
use crate::layout::syntax::*;
use crate::naive::implies::{implies, Verdict};
use crate::naive::judge::operands_of;
use crate::naive::modified::of_expression;
use crate::naive::sets::{union, without};

impl Maker<'_> {
    /// A set P that implies Q.
    pub fn stronger(&mut self, q: &Set, detours: usize) -> Option<(Set, Box<Implication>)> {
        self.spend()?;
        let never = |b: &Bool| implies(b, &Bool::Truth(false), STANDARD) == Verdict::Holds;
        if self.rng.once_in(2) && (q.iter().all(|m| never(&m.phi)) || self.slip()) {
            return Some((Set::new(), implication_of(ImplicationRule::S14)));
        }
        if self.rng.once_in(2) {
            if let Some(member) = self.one(q) {
                if of_expression(&member.e).is_empty() || self.slip() {
                    return Some((Set::new(), implication_of(ImplicationRule::S15)));
                }
            }
        }
        if detours > 0 {
            let found = match self.rng.below(5) {
                0 | 1 if q.len() > 1 => self.rule_16(q, detours - 1),
                2 => self.rule_17(q, detours - 1),
                3 => self.rule_18(q),
                4 => self.rule_19(q),
                _ => None,
            };
            if found.is_some() {
                return found;
            }
        }
        // Rule 13: more members.
        let mut p = q.clone();
        while p.len() < 20 && self.rng.once_in(2) {
            p.push(parts::member(self.rng, &self.pool));
        }
        Some((self.again(&p)?, implication_of(ImplicationRule::S13)))
    }

    fn rule_16(&mut self, q: &Set, detours: usize) -> Option<(Set, Box<Implication>)> {
        let (s2, t2) = self.split(q);
        let (s, first) = self.stronger(&s2, detours)?;
        let (t, second) = self.stronger(&t2, detours)?;
        let p = self.again(&union(&s, &t))?;
        Some((p, implication_of(ImplicationRule::S16 { s, s2, t, t2, first, second })))
    }

    fn rule_17(&mut self, q: &Set, detours: usize) -> Option<(Set, Box<Implication>)> {
        let (t, second) = self.stronger(q, detours)?;
        let mut s2 = Set::new();
        for member in &t {
            if self.rng.once_in(2) {
                s2.push(member.clone());
            }
        }
        if self.rng.once_in(4) {
            s2.push(parts::member(self.rng, &self.pool));
        }
        let (s, first) = self.stronger(&s2, detours)?;
        let p = self.again(&union(&without(&t, &s2), &s))?;
        Some((p, implication_of(ImplicationRule::S17 { s, s2, t, first, second })))
    }

    fn rule_18(&mut self, q: &Set) -> Option<(Set, Box<Implication>)> {
        let member = self.one(q)?;
        let phi = self.weaker(&member.phi);
        if implies(&member.phi, &phi, STANDARD) != Verdict::Holds && !self.slip() {
            return None;
        }
        Some((vec![Member { phi, e: member.e.clone() }], implication_of(ImplicationRule::S18)))
    }

    fn rule_19(&mut self, q: &Set) -> Option<(Set, Box<Implication>)> {
        let member = self.one(q)?;
        let mut p = Set::new();
        for e in operands_of(&member.e) {
            p.push(Member { phi: member.phi.clone(), e });
        }
        if p.is_empty() {
            if !self.slip() {
                return None;
            }
            // As if select and update were among the kinds of rule 19.
            let parts = match &member.e {
                Expression::Arith(Arith::Select(h, i)) => {
                    vec![Expression::Array((**h).clone()), Expression::Arith((**i).clone())]
                }
                Expression::Array(Array::Update(h, i, v)) => vec![
                    Expression::Array((**h).clone()),
                    Expression::Arith((**i).clone()),
                    Expression::Arith((**v).clone()),
                ],
                _ => Vec::new(),
            };
            for e in parts {
                p.push(Member { phi: member.phi.clone(), e });
            }
        }
        Some((self.again(&p)?, implication_of(ImplicationRule::S19)))
    }
}
