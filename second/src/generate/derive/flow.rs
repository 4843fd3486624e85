//! Flow, rules 1 to 14; call.rs has rule 31.

use super::Maker;
use crate::generate::parts;
use crate::generate::prove::prove;
use crate::layout::syntax::*;
use crate::naive::modified::{self, modified_by, of_expression, of_set, used_by};
use crate::naive::replace::{self, Replacement};
use crate::naive::sets::{under, union};

impl Maker<'_> {
    pub fn flow(&mut self, c: &Command, q: &Set, detours: usize) -> Option<(Set, Box<Flow>)> {
        self.spend()?;
        if detours > 0 && self.rng.once_in(3) {
            let way = self.rng.below(6);
            let found = match way {
                0 => self.rule_7(c, q, detours - 1),
                1 => self.rule_8(c, q, detours - 1),
                2 => self.rule_9(c, q, detours - 1),
                3 => self.rule_10(c, q),
                4 => self.rule_11(c, q),
                _ => self.rule_12(c, q, detours - 1),
            };
            if found.is_some() {
                return found;
            }
        }
        self.by_command(c, q, detours)
    }

    fn by_command(&mut self, c: &Command, q: &Set, detours: usize) -> Option<(Set, Box<Flow>)> {
        match &c.form {
            Form::Skip => Some((self.again(q)?, flow_of(FlowRule::F1))),
            Form::Sequence(c1, c2) => {
                let (m, second) = self.flow(c2, q, detours)?;
                let (p, first) = self.flow(c1, &m, detours)?;
                Some((p, flow_of(FlowRule::F2 { m, first, second })))
            }
            Form::AssignScalar(x, a) => {
                let p = replace::in_set(q, Replacement::Scalar(*x, a));
                Some((self.again(&p)?, flow_of(FlowRule::F3)))
            }
            Form::AssignArray(h, a) => {
                let p = replace::in_set(q, Replacement::Array(*h, a));
                Some((self.again(&p)?, flow_of(FlowRule::F4)))
            }
            Form::Assert(b) => Some((self.again(&under(q, b))?, flow_of(FlowRule::F5))),
            Form::If(..) if q.len() == 1 => {
                if self.rng.once_in(3) {
                    if let Some(found) = self.rule_11(c, q) {
                        return Some(found);
                    }
                }
                self.rule_6(c, q, detours)
            }
            Form::If(..) if q.is_empty() => self.rule_10(c, q),
            Form::If(..) if self.slip() => self.rule_6(c, q, detours),
            Form::If(..) => self.rule_9(c, q, detours),
            Form::While(..) => self.rule_13(c, q, detours),
            Form::For(x, m, body) => {
                let d = self.meaning(*x, *m, body);
                let (p, flow) = self.flow(&d, q, detours)?;
                Some((p, flow_of(FlowRule::F14 { d, flow })))
            }
            Form::Call(p) => self.flow_call(c, *p, q),
        }
    }

    fn rule_6(&mut self, c: &Command, q: &Set, detours: usize) -> Option<(Set, Box<Flow>)> {
        let Form::If(b, c1, c2) = &c.form else { return None };
        let (s, then) = self.flow(c1, q, detours)?;
        let (t, otherwise) = self.flow(c2, q, detours)?;
        let (phi0, before) = self.before(c, &q[0].phi, detours)?;
        let test = Member { phi: phi0.clone(), e: Expression::Bool(b.clone()) };
        let mut both = union(&under(&s, b), &under(&t, &not(b.clone())));
        if !self.slip() {
            both.push(test);
        }
        let p = self.again(&both)?;
        Some((p, flow_of(FlowRule::F6 { s, t, phi0, then, otherwise, before })))
    }

    fn rule_7(&mut self, c: &Command, q: &Set, detours: usize) -> Option<(Set, Box<Flow>)> {
        let (m, flow) = self.flow(c, q, detours)?;
        let (p, set) = self.stronger(&m, 2)?;
        Some((p, flow_of(FlowRule::F7 { m, set, flow })))
    }

    fn rule_8(&mut self, c: &Command, q: &Set, detours: usize) -> Option<(Set, Box<Flow>)> {
        let (m, set) = self.stronger(q, 2)?;
        let (p, flow) = self.flow(c, &m, detours)?;
        Some((p, flow_of(FlowRule::F8 { m, flow, set })))
    }

    fn rule_9(&mut self, c: &Command, q: &Set, detours: usize) -> Option<(Set, Box<Flow>)> {
        let (s2, t2) = self.split(q);
        let (s, first) = self.flow(c, &s2, detours)?;
        let (t, second) = self.flow(c, &t2, detours)?;
        let p = self.again(&union(&s, &t))?;
        Some((p, flow_of(FlowRule::F9 { s, s2, t, t2, first, second })))
    }

    pub fn rule_10(&mut self, c: &Command, q: &Set) -> Option<(Set, Box<Flow>)> {
        if of_set(q).meets(&modified_by(c, self.procedures)) && !self.slip() {
            return None;
        }
        Some((self.again(q)?, flow_of(FlowRule::F10)))
    }

    pub fn rule_11(&mut self, c: &Command, q: &Set) -> Option<(Set, Box<Flow>)> {
        let member = &self.one(q)?;
        if of_expression(&member.e).meets(&modified_by(c, self.procedures)) && !self.slip() {
            return None;
        }
        let (phi, before) = self.before(c, &member.phi, 2)?;
        let p = vec![Member { phi, e: member.e.clone() }];
        Some((p, flow_of(FlowRule::F11 { before })))
    }

    /// If Q is not a set under some φ', it is first made one (under true) by
    /// rule 8.
    fn rule_12(&mut self, c: &Command, q: &Set, detours: usize) -> Option<(Set, Box<Flow>)> {
        let mut s2 = Set::new();
        let mut common: Option<Bool> = None;
        let mut fits = true;
        for member in q {
            match &member.phi {
                Bool::And(left, right) if common.is_none() || common.as_ref() == Some(&**right) => {
                    common = Some((**right).clone());
                    s2.push(Member { phi: (**left).clone(), e: member.e.clone() });
                }
                _ => fits = false,
            }
        }
        if !fits {
            let m = under(q, &Bool::Truth(true));
            let set = prove(&m, q).ok()?;
            let (p, flow) = self.rule_12(c, &m, detours)?;
            return Some((p, flow_of(FlowRule::F8 { m, flow, set })));
        }
        let phi2 = match common {
            Some(b) => b,
            None => parts::boolean(self.rng, &self.pool, 1),
        };
        let (s, flow) = self.flow(c, &s2, detours)?;
        let (phi, before) = self.before(c, &phi2, 2)?;
        let p = self.again(&under(&s, &phi))?;
        Some((p, flow_of(FlowRule::F12 { s, s2, phi, phi2, flow, before })))
    }

    /// An invariant I that holds true ⇒ B and true ⇒ each identifier, made
    /// larger until the body's precondition for I follows from I.
    fn rule_13(&mut self, c: &Command, q: &Set, detours: usize) -> Option<(Set, Box<Flow>)> {
        let Form::While(b, body) = &c.form else { return None };
        // Often the loop has nothing to do with Q, or only with antecedents.
        if self.rng.once_in(2) {
            if let Some(found) = self.rule_10(c, q) {
                return Some(found);
            }
            if let Some(found) = self.rule_11(c, q) {
                return Some(found);
            }
        }
        let mut used = of_set(q);
        modified::in_bool(b, &mut used);
        used.add_all(&used_by(body, self.procedures));
        let mut inv = Set::new();
        if !self.slip() {
            inv.push(member(always(), b.clone()));
        }
        for x in used.all_scalars() {
            inv.push(member(always(), Arith::Scalar(x)));
        }
        for h in used.all_arrays() {
            inv.push(member(always(), Array::Identifier(h)));
        }
        for _ in 0..4 {
            inv = self.again(&inv)?;
            let (m, flow) = self.flow(body, &inv, detours.min(1))?;
            let inside = prove(&inv, &m);
            let after = prove(&inv, q);
            let (set, weaken) = match (inside, after) {
                (Ok(set), Ok(weaken)) => (set, weaken),
                (a, b) => {
                    for e in a.err().into_iter().chain(b.err()).flatten() {
                        inv.push(member(always(), e));
                    }
                    continue;
                }
            };
            let round = flow_of(FlowRule::F7 { m, set, flow });
            let whole = flow_of(FlowRule::F13 { body: round });
            let rule = FlowRule::F8 { m: inv.clone(), flow: whole, set: weaken };
            return Some((self.again_same(&inv), flow_of(rule)));
        }
        None
    }
}
