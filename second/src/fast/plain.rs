//! Request [2]: "Before two antecedents, or two assertions in rules 20 to 30, are compared, every "true and" and "and true" is
//! dropped at each depth until none is left." Nothing is built: where the plain form of each boolean starts is found once, while it
//! is read, and two plain forms are gone through side by side, from part to part; as words where nothing between is dropped.

use super::layout::*;
use super::Parts;

/// The plain form of a boolean: the place of its first word, with `GAPS` unless it is all words from there to the boolean's end.
/// Of that word the parts are plain forms in their turn.
#[derive(Clone, Copy, PartialEq)]
pub struct Plain(u16);

const GAPS: u16 = 1 << 15;

impl Plain {
    pub const NONE: Plain = Plain(0);

    /// A boolean that is written in its plain form.
    pub fn written(place: usize) -> Plain {
        Plain(place as u16)
    }

    fn start(self) -> usize {
        usize::from(self.0) % MOST_WORDS
    }

    fn with_gaps(self) -> Plain {
        Plain(self.0 | GAPS)
    }
}

impl Parts {
    /// The plain form of the `and` or `or` at a place, which has the written one so far. A boolean's plain form is true exactly when
    /// all its words are `and` or true.
    pub fn drop_in_pair(&mut self, place: usize) {
        let (left, right) = (place + 1, self.end(place + 1));
        if self.kind(place) == AND && self.is_true(left) {
            self.plain[place] = self.plain[right];
        } else if self.kind(place) == AND && self.is_true(right) {
            self.plain[place] = self.plain[left].with_gaps();
        } else if !self.is_plain(left) || !self.is_plain(right) {
            self.plain[place] = self.plain[place].with_gaps();
        }
    }

    /// The same of a `not`.
    pub fn drop_in_not(&mut self, place: usize) {
        if !self.is_plain(place + 1) {
            self.plain[place] = self.plain[place].with_gaps();
        }
    }

    pub fn is_true(&self, phi: usize) -> bool {
        self.words[self.plain[phi].start()] == TRUE_WORD
    }

    /// Whether the boolean is written in its plain form.
    fn is_plain(&self, phi: usize) -> bool {
        self.plain[phi] == Plain::written(phi)
    }

    /// The places of two plain forms, if neither has gaps.
    #[inline(always)]
    fn without_gaps(&self, a: usize, b: usize) -> Option<(usize, usize)> {
        let (x, y) = (self.plain[a], self.plain[b]);
        ((x.0 | y.0) & GAPS == 0).then_some((x.start(), y.start()))
    }

    /// Whether two antecedents or assertions have the same plain form.
    pub fn equal_plain(&self, a: usize, b: usize) -> bool {
        match self.without_gaps(a, b) {
            Some((x, y)) => self.words[x] == self.words[y] && self.same_words(x, self.end(a), y, self.end(b)),
            None => self.equal_from(self.plain[a].start(), self.plain[b].start()),
        }
    }

    /// The same of the plain forms that start at two places.
    fn equal_from(&self, x: usize, y: usize) -> bool {
        if self.is_plain(x) && self.is_plain(y) {
            return self.equal(x, y);
        }
        self.words[x] == self.words[y]
            && self.equal_plain(x + 1, y + 1)
            && (self.kind(x) == NOT || self.equal_plain(self.end(x + 1), self.end(y + 1)))
    }

    /// Antecedents plain, consequents by words. A consequent follows its antecedent, so that without gaps both are compared at
    /// once; members of one shape differ more often at their end.
    #[inline(always)]
    pub fn equal_members(&self, a: usize, b: usize) -> bool {
        let Some((x, y)) = self.without_gaps(a, b) else { return self.equal_with_gaps(a, b) };
        let (end, other) = (self.member_end(a), self.member_end(b));
        end - x == other - y && self.words[end - 1] == self.words[other - 1] && self.same_words(x, end, y, other)
    }

    #[cold]
    fn equal_with_gaps(&self, a: usize, b: usize) -> bool {
        self.equal(self.end(a), self.end(b)) && self.equal_plain(a, b)
    }

    /// Whether φ is left ∧ test, or left ∧ ¬test, all plain.
    pub fn is_and(&self, phi: usize, left: usize, test: usize, negated: bool) -> bool {
        if self.is_true(left) {
            return self.is_test(phi, test, negated);
        }
        if !negated && self.is_true(test) {
            return self.equal_plain(phi, left);
        }
        let start = self.plain[phi].start();
        self.words[start] == AND_WORD
            && self.equal_plain(start + 1, left)
            && self.is_test(self.end(start + 1), test, negated)
    }

    fn is_test(&self, phi: usize, test: usize, negated: bool) -> bool {
        if !negated {
            return self.equal_plain(phi, test);
        }
        let start = self.plain[phi].start();
        self.words[start] == NOT_WORD && self.equal_plain(start + 1, test)
    }

    /// Whether φ is (φ1 ∧ B) ∨ (φ2 ∧ ¬B), all plain.
    pub fn is_choice(&self, phi: usize, one: usize, two: usize, test: usize) -> bool {
        let start = self.plain[phi].start();
        self.words[start] == OR_WORD
            && self.is_and(start + 1, one, test, false)
            && self.is_and(self.end(start + 1), two, test, true)
    }

    /// Whether φ is the assertion `from` with the part `by` for each `identifier`, both plain. (What is put in is no boolean, so
    /// that what is dropped stays the same.)
    pub fn is_plain_replaced(&self, phi: usize, from: usize, identifier: u32, by: usize) -> bool {
        if let Some((x, y)) = self.without_gaps(phi, from) {
            return self.is_replaced(x, self.end(phi), y, self.end(from), identifier, by);
        }
        let (x, y) = (self.plain[phi].start(), self.plain[from].start());
        if self.is_plain(x) && self.is_plain(y) {
            return self.is_replaced(x, self.end(x), y, self.end(y), identifier, by);
        }
        let part = |phi, from| self.is_plain_replaced(phi, from, identifier, by);
        self.words[x] == self.words[y]
            && part(x + 1, y + 1)
            && (self.kind(x) == NOT || part(self.end(x + 1), self.end(y + 1)))
    }

    /// The same of members, the consequent as words.
    pub fn is_member_replaced(&self, member: usize, from: usize, identifier: u32, by: usize) -> bool {
        let (end, from_end) = (self.member_end(member), self.member_end(from));
        if let Some((x, y)) = self.without_gaps(member, from) {
            return self.is_replaced(x, end, y, from_end, identifier, by);
        }
        self.is_plain_replaced(member, from, identifier, by)
            && self.is_replaced(self.end(member), end, self.end(from), from_end, identifier, by)
    }
}
