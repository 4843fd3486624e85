//! Document 02, request [2]: "Before two antecedents, or two assertions in rules 20 to 30, are compared, every "true and" and
//! "and true" is dropped at each depth until none is left." Nothing else is dropped: not "true or", "or false" or "not false".

use crate::layout::syntax::*;

/// The assertion without any "true and" or "and true".
pub fn plain(b: &Bool) -> Bool {
    match b {
        Bool::Truth(_) | Bool::Compare(..) => b.clone(),
        Bool::Not(inner) => not(plain(inner)),
        Bool::Or(left, right) => or(plain(left), plain(right)),
        Bool::And(left, right) => match (plain(left), plain(right)) {
            (Bool::Truth(true), right) => right,
            (left, Bool::Truth(true)) => left,
            (left, right) => and(left, right),
        },
    }
}

/// Whether two antecedents, or two assertions of rules 20 to 32, are equal.
pub fn equal(phi: &Bool, psi: &Bool) -> bool {
    plain(phi) == plain(psi)
}
