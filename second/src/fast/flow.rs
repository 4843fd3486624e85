//! Rules 1 to 14 and 31 of flow: a goal (P, C, Q) and its evidence, all as places.

use super::layout::*;
use super::sets::Piece::*;
use super::{need, Judge, Judged, Refused};

impl Judge<'_> {
    pub fn flow(&mut self, p: usize, c: usize, q: usize, at: usize) -> Judged {
        let f = self.parts;
        let first = at + 1;
        match f.payload(at) {
            2 => {
                need(f.kind(c) == SEQUENCE, at)?;
                let left = f.end(first);
                self.flow(p, c + 1, first, left)?;
                self.flow(first, f.end(c + 1), q, f.end(left))
            }
            6 => self.rule_6(p, c, q, at),
            7 => {
                let child = f.end(first);
                self.implication(p, first, child)?;
                self.flow(first, c, q, f.end(child))
            }
            8 => {
                let child = f.end(first);
                self.flow(p, c, first, child)?;
                self.implication(first, q, f.end(child))
            }
            9 => self.rule_9(p, c, q, at),
            11 => self.rule_11(p, c, q, at),
            12 => self.rule_12(p, c, q, at),
            13 => {
                need(f.kind(c) == WHILE && f.same(p, q), at)?;
                let test = c + 1;
                need(f.members(p).any(|m| f.is_true(m) && f.equal(f.end(m), test)), at)?;
                self.flow(p, f.end(test), q, first)
            }
            14 => {
                need(f.is_meaning(first, c), at)?;
                self.flow(p, first, q, f.end(first))
            }
            rule => need(self.leaf(rule, p, c, q), at),
        }
    }

    /// The rules without children.
    fn leaf(&self, rule: u32, p: usize, c: usize, q: usize) -> bool {
        let f = self.parts;
        let x = f.payload(c);
        match rule {
            1 => f.kind(c) == SKIP && f.same(p, q),
            3 => f.kind(c) == ASSIGN && self.replaced(p, q, word(SCALAR, x), c + 1),
            4 => f.kind(c) == ASSIGN_ARRAY && self.replaced(p, q, word(ARRAY, x), c + 1),
            5 => f.kind(c) == ASSERT && f.same_as(p, &[Under(q, c + 1)]),
            31 => f.kind(c) == CALL && f.same(p, f.called(c).pre) && f.same(q, f.called(c).post),
            // rule 10
            _ => f.same(p, q) && f.identifiers[q] & self.modified[c] == 0,
        }
    }

    fn replaced(&self, p: usize, q: usize, identifier: u32, by: usize) -> bool {
        self.parts.same_as(p, &[Replaced { set: q, identifier, by }])
    }

    fn rule_6(&mut self, p: usize, c: usize, q: usize, at: usize) -> Judged {
        let f = self.parts;
        need(f.kind(c) == IF && f.one(q).is_some(), at)?;
        let (s, test) = (at + 1, c + 1);
        let t = f.end(s);
        let phi = f.end(t);
        need(f.same_as(p, &[Under(s, test), UnderNot(t, test), Member(phi, test)]), at)?;
        let (then, first) = (f.end(test), f.end(phi));
        let second = f.end(first);
        self.flow(s, then, q, first)?;
        self.flow(t, f.end(then), q, second)?;
        self.precondition(phi, c, q + 1, f.end(second))
    }

    fn rule_9(&mut self, p: usize, c: usize, q: usize, at: usize) -> Judged {
        let [s, s_after, t, t_after, first] = self.parts.unions(p, q, at)?;
        self.flow(s, c, s_after, first)?;
        self.flow(t, c, t_after, self.parts.end(first))
    }

    fn rule_11(&mut self, p: usize, c: usize, q: usize, at: usize) -> Judged {
        let f = self.parts;
        need(f.one(p).is_some() && f.one(q).is_some(), at)?;
        let e = f.end(q + 1);
        need(f.equal(f.end(p + 1), e) && f.identifiers[e] & self.modified[c] == 0, at)?;
        self.precondition(p + 1, c, q + 1, at + 1)
    }

    fn rule_12(&mut self, p: usize, c: usize, q: usize, at: usize) -> Judged {
        let f = self.parts;
        let s = at + 1;
        let s_after = f.end(s);
        let phi = f.end(s_after);
        let phi_after = f.end(phi);
        need(f.same_as(p, &[Under(s, phi)]), at)?;
        need(f.same_as(q, &[Under(s_after, phi_after)]), at)?;
        let first = f.end(phi_after);
        self.flow(s, c, s_after, first)?;
        self.precondition(phi, c, phi_after, f.end(first))
    }
}

impl super::Parts {
    /// The conditions of rules 9 and 16, P same as S ∪ T and Q same as S' ∪ T': the places of S, S', T, T' and the first child.
    /// (Called instead of inlined, it costs up to 2 percent of a check.)
    #[inline(always)]
    pub fn unions(&self, p: usize, q: usize, at: usize) -> Result<[usize; 5], Refused> {
        let s = at + 1;
        let s_after = self.end(s);
        let t = self.end(s_after);
        let t_after = self.end(t);
        need(self.same_as(p, &[Written(s), Written(t)]), at)?;
        need(self.same_as(q, &[Written(s_after), Written(t_after)]), at)?;
        Ok([s, s_after, t, t_after, self.end(t_after)])
    }

    /// Whether D is the command that the `for` means: q := 1; while q ≤ m do (C; q := q + 1).
    pub fn is_meaning(&self, d: usize, c: usize) -> bool {
        if self.kind(c) != FOR {
            return false;
        }
        let (q, m) = (self.payload(c) % 32, self.payload(c) / 32);
        let (assign, one) = (word(ASSIGN, q), word(CONSTANT, 1));
        let (q, m) = (word(SCALAR, q), word(SCALAR, m));
        let start = [word(SEQUENCE, 0), assign, one, word(WHILE, 0), word(COMPARISON, 2), q, m, word(SEQUENCE, 0)];
        let next = [assign, word(OPERATOR, 0), q, one];
        let body = d + start.len();
        self.words[d..].starts_with(&start)
            && self.after(body, c + 1).is_some_and(|after| self.words[after..].starts_with(&next))
    }
}
