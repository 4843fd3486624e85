//! Rules 20 to 30 and 32 of necessary precondition: a goal (φ, C, φ').

use super::implies::{negated, positive};
use super::layout::*;
use super::{need, Judge, Judged};

impl Judge<'_> {
    pub fn precondition(&mut self, phi: usize, c: usize, post: usize, at: usize) -> Judged {
        let f = self.parts;
        let first = at + 1;
        match f.payload(at) {
            20 => self.rule_20(phi, c, post, at),
            21 => {
                need(f.kind(c) == WHILE, at)?;
                let test = c + 1;
                self.implies(&[positive(first), positive(test)], Some(phi), at)?;
                self.implies(&[positive(post), negated(test)], Some(phi), at)?;
                self.precondition(first, f.end(test), phi, f.end(first))
            }
            23 => {
                need(f.kind(c) == SEQUENCE, at)?;
                let left = f.end(first);
                self.precondition(phi, c + 1, first, left)?;
                self.precondition(first, f.end(c + 1), post, f.end(left))
            }
            28 => {
                self.implies(&[positive(first)], Some(phi), at)?;
                self.precondition(first, c, post, f.end(first))
            }
            30 => {
                need(f.is_meaning(first, c), at)?;
                self.precondition(phi, first, post, f.end(first))
            }
            32 => {
                need(f.kind(c) == CALL, at)?;
                self.precondition(phi, f.called(c).command, post, first)
            }
            rule => need(self.pre_leaf(rule, phi, c, post), at),
        }
    }

    /// The rules without children.
    fn pre_leaf(&self, rule: u32, phi: usize, c: usize, post: usize) -> bool {
        let f = self.parts;
        let x = f.payload(c);
        match rule {
            22 => f.kind(c) == SKIP && f.equal_plain(phi, post),
            24 => f.kind(c) == ASSIGN && f.is_plain_replaced(phi, post, word(SCALAR, x), c + 1),
            25 => f.kind(c) == ASSIGN_ARRAY && f.is_plain_replaced(phi, post, word(ARRAY, x), c + 1),
            26 => f.kind(c) == ASSERT && f.is_and(phi, post, c + 1, false),
            27 => f.equal_plain(phi, post) && f.identifiers[post] & self.modified[c] == 0,
            // rule 29
            _ => f.is_true(phi),
        }
    }

    fn rule_20(&mut self, phi: usize, c: usize, post: usize, at: usize) -> Judged {
        let f = self.parts;
        need(f.kind(c) == IF, at)?;
        let (one, test) = (at + 1, c + 1);
        let two = f.end(one);
        need(f.is_choice(phi, one, two, test), at)?;
        let (then, first) = (f.end(test), f.end(two));
        self.precondition(one, then, post, first)?;
        self.precondition(two, f.end(then), post, f.end(first))
    }
}
