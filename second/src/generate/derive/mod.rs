//! Derivations made backwards: given a command and a postcondition, a
//! precondition and its evidence, by the rules of document 01. `None` when a
//! choice leads nowhere or grows too large; the caller tries another seed.

mod before;
mod call;
mod flow;
mod implication;

use super::parts::{self, Pool};
use super::prng::Prng;
use super::prove::without_doubles;
use crate::layout::syntax::*;
use crate::layout::write;

pub struct Maker<'a> {
    pub rng: &'a mut Prng,
    pub pool: Pool,
    /// What calls mean.
    pub procedures: &'a [Procedure],
    /// Rules that may still be used.
    pub fuel: usize,
    /// Side conditions that may still be broken: 0 for files to be accepted.
    pub slips: usize,
}

const MOST_MEMBERS: usize = 64;
/// Antecedents larger than this are given up for true.
const MANY_NODES: usize = 60;

fn nodes(b: &Bool) -> usize {
    let mut words = Vec::new();
    write::boolean(b, &mut words);
    words.len()
}

impl Maker<'_> {
    fn spend(&mut self) -> Option<()> {
        self.fuel = self.fuel.checked_sub(1)?;
        Some(())
    }

    /// Whether the condition at hand is to be broken.
    fn slip(&mut self) -> bool {
        if self.slips == 0 || !self.rng.once_in(4) {
            return false;
        }
        self.slips -= 1;
        true
    }

    /// The same set, written in another order, perhaps one member twice. A
    /// slip takes a member out or puts one in.
    fn again(&mut self, set: &[Member]) -> Option<Set> {
        let mut out = without_doubles(set);
        if self.rng.once_in(4) && self.slip() {
            if out.is_empty() || self.rng.once_in(2) {
                out.push(parts::member(self.rng, &self.pool));
            } else {
                let gone = self.rng.below(out.len());
                out.remove(gone);
            }
        }
        if self.rng.once_in(2) {
            self.rng.shuffle(&mut out);
        }
        if !out.is_empty() && self.rng.once_in(12) {
            let twice = self.rng.pick(&out).clone();
            out.push(twice);
        }
        (out.len() <= MOST_MEMBERS).then_some(out)
    }

    /// The one written member; a slip takes the first of several.
    fn one(&mut self, set: &[Member]) -> Option<Member> {
        match set {
            [member] => Some(member.clone()),
            [first, ..] if self.slip() => Some(first.clone()),
            _ => None,
        }
    }

    /// Two sets that together are the set; a member may be in both.
    fn split(&mut self, set: &[Member]) -> (Set, Set) {
        let mut a = Set::new();
        let mut b = Set::new();
        let cut = 1 + self.rng.below(set.len().max(1));
        for (i, member) in set.iter().enumerate() {
            let left = i < cut;
            if left || self.rng.once_in(10) {
                a.push(member.clone());
            }
            if !left || self.rng.once_in(10) {
                b.push(member.clone());
            }
        }
        (a, b)
    }

    /// Another order only.
    fn again_same(&mut self, set: &[Member]) -> Set {
        let mut out = set.to_vec();
        self.rng.shuffle(&mut out);
        out
    }

    /// Something that the boolean implies, if it is not too large.
    fn weaker(&mut self, phi: &Bool) -> Bool {
        if nodes(phi) > MANY_NODES {
            return Bool::Truth(true);
        }
        if self.slip() {
            // Stronger, or nothing like it.
            let other = parts::boolean(self.rng, &self.pool, 1);
            return if self.rng.once_in(2) { and(phi.clone(), other) } else { other };
        }
        match (self.rng.below(6), phi) {
            (0, _) => or(phi.clone(), parts::boolean(self.rng, &self.pool, 1)),
            (1, _) => or(parts::boolean(self.rng, &self.pool, 1), phi.clone()),
            (2, _) => not(not(phi.clone())),
            (3, _) => and(phi.clone(), Bool::Truth(true)),
            (_, Bool::And(a, b)) => {
                if self.rng.once_in(2) {
                    (**a).clone()
                } else {
                    (**b).clone()
                }
            }
            _ => Bool::Truth(true),
        }
    }

    /// Rules 14 and 30; a slip makes it almost what the `for` means.
    fn meaning(&mut self, x: u32, m: u32, body: &Command) -> Command {
        if !self.slip() {
            return meaning_of_for(x, m, body);
        }
        match self.rng.below(4) {
            0 => meaning_of_for(m, x, body),
            1 => meaning_of_for(x, *self.rng.pick(&self.pool.scalars), body),
            2 => meaning_of_for(x, m, &command(Form::Skip)),
            _ => {
                let d = meaning_of_for(x, m, body);
                match d.form {
                    Form::Sequence(_, round) => *round,
                    _ => d,
                }
            }
        }
    }
}
