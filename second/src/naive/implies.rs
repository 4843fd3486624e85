//! Document 01, "Rules", "Implies": a plain truth table over the distinct
//! comparisons of both sides, by words; at most 10, or as many as request [6]
//! sets.

use crate::layout::settings::Settings;
use crate::layout::syntax::*;

#[derive(Clone, Copy, PartialEq, Eq, Debug)]
pub enum Verdict {
    Holds,
    Fails,
    TooLarge,
}

pub fn implies(left: &Bool, right: &Bool, settings: Settings) -> Verdict {
    let most = settings.comparisons as usize;
    let mut comparisons = Vec::new();
    collect(left, &mut comparisons, most);
    collect(right, &mut comparisons, most);
    if comparisons.len() > most {
        return Verdict::TooLarge;
    }
    let left = column(left, &comparisons);
    let right = column(right, &comparisons);
    for row in 0..left.len() {
        if left[row] && !right[row] {
            return Verdict::Fails;
        }
    }
    Verdict::Holds
}

/// The distinct comparisons, in the order in which they are met; after the
/// first that is one too many, no more are wanted.
fn collect<'a>(b: &'a Bool, found: &mut Vec<&'a Bool>, most: usize) {
    match b {
        Bool::Truth(_) => {}
        Bool::Compare(..) => {
            if found.len() <= most && !found.contains(&b) {
                found.push(b);
            }
        }
        Bool::And(left, right) | Bool::Or(left, right) => {
            collect(left, found, most);
            collect(right, found, most);
        }
        Bool::Not(inner) => collect(inner, found, most),
    }
}

/// A column of the truth table: one entry for each assignment of true or
/// false to the comparisons (bit i of the row is comparison i).
fn column(b: &Bool, comparisons: &[&Bool]) -> Vec<bool> {
    let rows = 1usize << comparisons.len();
    match b {
        Bool::Truth(t) => vec![*t; rows],
        Bool::Compare(..) => {
            let i = comparisons.iter().position(|c| *c == b).expect("collected before");
            (0..rows).map(|row| row >> i & 1 == 1).collect()
        }
        Bool::And(left, right) => {
            let mut out = column(left, comparisons);
            let right = column(right, comparisons);
            for row in 0..rows {
                out[row] &= right[row];
            }
            out
        }
        Bool::Or(left, right) => {
            let mut out = column(left, comparisons);
            let right = column(right, comparisons);
            for row in 0..rows {
                out[row] |= right[row];
            }
            out
        }
        Bool::Not(inner) => {
            let mut out = column(inner, comparisons);
            for entry in out.iter_mut() {
                *entry = !*entry;
            }
            out
        }
    }
}
