//! Rules 13 to 19 of implication between sets: a goal (P, Q).

use super::implies::positive;
use super::layout::*;
use super::sets::Piece::*;
use super::{need, Judge, Judged};

impl Judge<'_> {
    pub fn implication(&mut self, p: usize, q: usize, at: usize) -> Judged {
        let f = self.parts;
        match f.payload(at) {
            13 => need(f.each_stands_in(q, p), at),
            14 => {
                need(f.payload(p) == 0, at)?;
                f.members(q).try_for_each(|member| self.implies(&[positive(member)], None, at))
            }
            15 => need(f.payload(p) == 0 && f.one(q).is_some() && f.identifiers[f.end(q + 1)] == 0, at),
            16 => self.set_rule_16(p, q, at),
            17 => self.set_rule_17(p, q, at),
            18 => {
                need(f.one(p).is_some() && f.one(q).is_some(), at)?;
                need(f.equal(f.end(p + 1), f.end(q + 1)), at)?;
                self.implies(&[positive(q + 1)], Some(p + 1), at)
            }
            // rule 19
            _ => need(f.one(q).is_some() && self.has_operands(p, q + 1), at),
        }
    }

    fn set_rule_16(&mut self, p: usize, q: usize, at: usize) -> Judged {
        let [s, s_after, t, t_after, first] = self.parts.unions(p, q, at)?;
        self.implication(s, s_after, first)?;
        self.implication(t, t_after, self.parts.end(first))
    }

    fn set_rule_17(&mut self, p: usize, q: usize, at: usize) -> Judged {
        let f = self.parts;
        let s = at + 1;
        let s_after = f.end(s);
        let t = f.end(s_after);
        need(f.same_as(p, &[Without(t, s_after), Written(s)]), at)?;
        let first = f.end(t);
        self.implication(s, s_after, first)?;
        self.implication(t, q, f.end(first))
    }

    /// Whether P is φ ⇒ each operand of E, for the member φ ⇒ E.
    fn has_operands(&self, p: usize, phi: usize) -> bool {
        let f = self.parts;
        let e = f.end(phi);
        let left = Member(phi, e + 1);
        match f.kind(e) {
            NOT => f.same_as(p, &[left]),
            OPERATOR | COMPARISON | AND | OR => f.same_as(p, &[left, Member(phi, f.end(e + 1))]),
            _ => false,
        }
    }
}
