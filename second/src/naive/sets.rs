//! Document 01, "Language" (same sets) and "Rules" (a set under B, union,
//! without), with document 02's request [2]: antecedents are compared plain,
//! consequents by words; "every rule that compares sets takes this over".

use super::plain::equal;
use crate::layout::syntax::*;

/// "Consequents are still compared by words."
fn equal_members(a: &Member, b: &Member) -> bool {
    a.e == b.e && equal(&a.phi, &b.phi)
}

pub fn stands_in(member: &Member, set: &[Member]) -> bool {
    set.iter().any(|m| equal_members(m, member))
}

pub fn each_stands_in(some: &[Member], all: &[Member]) -> bool {
    some.iter().all(|m| stands_in(m, all))
}

/// "Two sets are the same when each member of one stands in the other."
pub fn same(a: &[Member], b: &[Member]) -> bool {
    each_stands_in(a, b) && each_stands_in(b, a)
}

/// "A set under B is the set with φ made φ ∧ B."
pub fn under(set: &[Member], b: &Bool) -> Set {
    let mut out = Set::new();
    for member in set {
        out.push(Member { phi: and(member.phi.clone(), b.clone()), e: member.e.clone() });
    }
    out
}

pub fn union(a: &[Member], b: &[Member]) -> Set {
    let mut out = a.to_vec();
    out.extend_from_slice(b);
    out
}

/// Request [2]: "rule 17's "without" stays by words".
pub fn without(a: &[Member], b: &[Member]) -> Set {
    let mut out = Set::new();
    for member in a {
        if !b.contains(member) {
            out.push(member.clone());
        }
    }
    out
}
