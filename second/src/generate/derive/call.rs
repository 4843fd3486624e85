//! Calls: flow rule 31 and precondition rule 32.

use super::Maker;
use crate::generate::parts;
use crate::generate::prove::prove;
use crate::layout::syntax::*;
use crate::naive::modified::{modified_by, of_expression, of_set};
use crate::naive::sets::{same, union};

/// A goal of one call that has evidence: P, Q and the evidence.
type Part = (Set, Set, Box<Flow>);

impl Maker<'_> {
    /// Q is what the call leaves as it was (rule 10), what it changes in antecedents alone (rule 11), and what the
    /// procedure's contract gives (rules 8 and 31), joined by rule 9.
    pub fn flow_call(&mut self, c: &Command, p: u32, q: &Set) -> Option<(Set, Box<Flow>)> {
        if same(q, &self.called(p).post) || self.slip() {
            return self.rule_31(p);
        }
        let (kept, changed) = self.unmodified(c, q);
        let mut parts = Vec::new();
        if !kept.is_empty() {
            let (pre, flow) = self.rule_10(c, &kept)?;
            parts.push((pre, kept, flow));
        }
        let mut rest = Set::new();
        for member in changed {
            let alone = vec![member.clone()];
            let free = !of_expression(&member.e).meets(&modified_by(c, self.procedures));
            match free.then(|| self.rule_11(c, &alone)).flatten() {
                Some((pre, flow)) => parts.push((pre, alone, flow)),
                None => rest.push(member),
            }
        }
        if !rest.is_empty() || parts.is_empty() {
            let (pre, flow) = self.by_contract(p, &rest)?;
            parts.push((pre, rest, flow));
        }
        self.joined(parts)
    }

    fn called(&self, p: u32) -> &Procedure {
        &self.procedures[p as usize]
    }

    /// The members that the command leaves as they were, and the others.
    fn unmodified(&self, c: &Command, q: &Set) -> (Set, Set) {
        let modified = modified_by(c, self.procedures);
        q.iter().cloned().partition(|member| !of_set(std::slice::from_ref(member)).meets(&modified))
    }

    /// A slip takes the contract of another procedure.
    fn rule_31(&mut self, p: u32) -> Option<(Set, Box<Flow>)> {
        let other = self.rng.below(self.procedures.len()) as u32;
        let from = if self.slip() { other } else { p };
        let pre = self.called(from).pre.clone();
        Some((self.again(&pre)?, flow_of(FlowRule::F31)))
    }

    fn by_contract(&mut self, p: u32, q: &Set) -> Option<(Set, Box<Flow>)> {
        let post = self.called(p).post.clone();
        let set = prove(&post, q).ok()?;
        let m = self.again(&post)?;
        let (pre, flow) = self.rule_31(p)?;
        Some((pre, flow_of(FlowRule::F8 { m, flow, set })))
    }

    /// Rule 9, again and again.
    fn joined(&mut self, parts: Vec<Part>) -> Option<(Set, Box<Flow>)> {
        let mut parts = parts.into_iter();
        let (mut s, mut s2, mut first) = parts.next()?;
        for (t, t2, second) in parts {
            let (pre, post) = (self.again(&union(&s, &t))?, union(&s2, &t2));
            first = flow_of(FlowRule::F9 { s, s2, t, t2, first, second });
            (s, s2) = (pre, post);
        }
        Some((s, first))
    }

    /// Rule 32; a slip takes another body.
    pub fn before_call(&mut self, p: u32, phi2: &Bool, detours: usize) -> Option<(Bool, Box<Before>)> {
        let body = match self.slip() {
            true => parts::random_command(self.rng, &self.pool, 0, &[]),
            false => self.called(p).command.clone(),
        };
        let (phi, inner) = self.before(&body, phi2, detours)?;
        Some((phi, before_of(BeforeRule::B32 { inner })))
    }
}
