//! Written sets compared with those that the rules make, which are never built: a made set is a few pieces, each a written set
//! and what is done to its members. Request [2]: antecedents are compared plain, consequents by words.

use super::Parts;

#[derive(Clone, Copy)]
pub enum Piece {
    Written(usize),
    /// The set under B, or under ¬B.
    Under(usize, usize),
    UnderNot(usize, usize),
    /// The set with the part `by` for the identifier that is this word.
    Replaced { set: usize, identifier: u32, by: usize },
    /// The members of the first set that do not stand in the second by words.
    Without(usize, usize),
    /// One member.
    Member(usize, usize),
}

/// The places of a written set's members.
pub struct Members<'a> {
    parts: &'a Parts,
    next: usize,
    left: u32,
}

impl Iterator for Members<'_> {
    type Item = usize;

    fn next(&mut self) -> Option<usize> {
        self.left = self.left.checked_sub(1)?;
        let member = self.next;
        self.next = self.parts.member_end(member);
        Some(member)
    }
}

impl Parts {
    pub fn members(&self, set: usize) -> Members<'_> {
        Members { parts: self, next: set + 1, left: self.payload(set) }
    }

    /// A member's words are its antecedent's and its consequent's, without a gap.
    pub fn member_end(&self, member: usize) -> usize {
        self.end(self.end(member))
    }

    /// The only written member.
    pub fn one(&self, set: usize) -> Option<usize> {
        (self.payload(set) == 1).then_some(set + 1)
    }

    /// "Rule 17's "without" stays by words."
    fn stands_by_words(&self, member: usize, set: usize) -> bool {
        let end = self.member_end(member);
        self.members(set).any(|other| {
            self.words[member] == self.words[other] && self.same_words(member, end, other, self.member_end(other))
        })
    }

    pub fn stands_in(&self, member: usize, set: usize) -> bool {
        self.members(set).any(|other| self.equal_members(member, other))
    }

    pub fn each_stands_in(&self, some: usize, all: usize) -> bool {
        self.members(some).all(|member| self.stands_in(member, all))
    }

    pub fn same(&self, p: usize, q: usize) -> bool {
        self.equal(p, q) || (self.each_stands_in(p, q) && self.each_stands_in(q, p))
    }

    /// Whether the written set is the same as the pieces together.
    pub fn same_as(&self, p: usize, pieces: &[Piece]) -> bool {
        self.members(p).all(|member| pieces.iter().any(|piece| self.stands_in_piece(member, *piece)))
            && pieces.iter().all(|piece| self.piece_stands_in(*piece, p))
    }

    fn stands_in_piece(&self, member: usize, piece: Piece) -> bool {
        match piece {
            Piece::Member(phi, e) => self.is_pair(member, phi, e),
            Piece::Without(set, but) => {
                self.members(set).any(|from| self.equal_members(member, from) && !self.stands_by_words(from, but))
            }
            Piece::Written(set) => self.stands_in(member, set),
            Piece::Under(set, _) | Piece::UnderNot(set, _) | Piece::Replaced { set, .. } => {
                self.members(set).any(|from| self.is_made(member, from, piece))
            }
        }
    }

    fn piece_stands_in(&self, piece: Piece, p: usize) -> bool {
        match piece {
            Piece::Member(phi, e) => self.members(p).any(|member| self.is_pair(member, phi, e)),
            Piece::Without(set, but) => {
                self.members(set).all(|from| self.stands_by_words(from, but) || self.stands_in(from, p))
            }
            Piece::Written(set) => self.each_stands_in(set, p),
            Piece::Under(set, _) | Piece::UnderNot(set, _) | Piece::Replaced { set, .. } => {
                self.members(set).all(|from| self.members(p).any(|member| self.is_made(member, from, piece)))
            }
        }
    }

    fn is_pair(&self, member: usize, phi: usize, e: usize) -> bool {
        self.equal(self.end(member), e) && self.equal_plain(member, phi)
    }

    /// Whether the written member is what the piece makes of its member `from`.
    #[inline(always)]
    fn is_made(&self, member: usize, from: usize, piece: Piece) -> bool {
        match piece {
            Piece::Under(_, test) => self.is_under(member, from, test, false),
            Piece::UnderNot(_, test) => self.is_under(member, from, test, true),
            Piece::Replaced { identifier, by, .. } => self.is_member_replaced(member, from, identifier, by),
            _ => self.equal_members(member, from),
        }
    }

    fn is_under(&self, member: usize, from: usize, test: usize, negated: bool) -> bool {
        self.equal(self.end(member), self.end(from)) && self.is_and(member, from, test, negated)
    }

    /// Whether the words from `at` to `end` are those from `from` to `from_end` with the part `by` for each `identifier`.
    /// Every word of an expression is a node, so the words are gone through in their order.
    pub fn is_replaced(&self, at: usize, end: usize, from: usize, from_end: usize, identifier: u32, by: usize) -> bool {
        let (mut rest, by) = (&self.words[at..end], &self.words[by..self.end(by)]);
        for word in &self.words[from..from_end] {
            if *word == identifier {
                match rest.strip_prefix(by) {
                    Some(after) => rest = after,
                    None => return false,
                }
            } else {
                match rest.split_first() {
                    Some((first, after)) if first == word => rest = after,
                    _ => return false,
                }
            }
        }
        rest.is_empty()
    }
}
