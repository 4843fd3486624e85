//! Evidence for a given set goal (P, Q), by the rules of kind 34: used for
//! loops, where P is an invariant and cannot be chosen backwards.

use crate::layout::settings::STANDARD;
use crate::layout::syntax::*;
use crate::naive::implies::{implies, Verdict};
use crate::naive::judge::operands_of;
use crate::naive::modified::of_expression;
use crate::naive::sets::{stands_in, union};

/// Evidence for (P, Q), or the consequents that P would need (under true).
pub fn prove(p: &Set, q: &Set) -> Result<Box<Implication>, Vec<Expression>> {
    let mut lacking = Vec::new();
    let mut proved = Vec::new();
    for member in q {
        match prove_member(p, member) {
            Ok((s, evidence)) => proved.push((s, vec![member.clone()], evidence)),
            Err(more) => lacking.extend(more),
        }
    }
    if !lacking.is_empty() {
        return Err(lacking);
    }
    let (used, _, evidence) = unite(proved);
    // From P to what was used of it (rules 17 and 13), then to Q.
    Ok(implication_of(ImplicationRule::S17 {
        s: p.clone(),
        s2: used.clone(),
        t: used,
        first: implication_of(ImplicationRule::S13),
        second: evidence,
    }))
}

type Part = (Set, Set, Box<Implication>);

/// Rule 16, again and again.
fn unite(parts: Vec<Part>) -> Part {
    let mut parts = parts.into_iter();
    let Some(mut all) = parts.next() else {
        return (Set::new(), Set::new(), implication_of(ImplicationRule::S13));
    };
    for (t, t2, second) in parts {
        let (s, s2, first) = all;
        let from = without_doubles(&union(&s, &t));
        let to = union(&s2, &t2);
        let evidence = implication_of(ImplicationRule::S16 {
            s,
            s2,
            t,
            t2,
            first,
            second,
        });
        all = (from, to, evidence);
    }
    all
}

pub fn without_doubles(set: &[Member]) -> Set {
    let mut out = Set::new();
    for member in set {
        if !stands_in(member, &out) {
            out.push(member.clone());
        }
    }
    out
}

/// Members of P, and evidence that they imply this one member.
fn prove_member(p: &Set, member: &Member) -> Result<(Set, Box<Implication>), Vec<Expression>> {
    if stands_in(member, p) {
        return Ok((vec![member.clone()], implication_of(ImplicationRule::S13)));
    }
    if of_expression(&member.e).is_empty() {
        return Ok((Set::new(), implication_of(ImplicationRule::S15)));
    }
    if implies(&member.phi, &Bool::Truth(false), STANDARD) == Verdict::Holds {
        return Ok((Set::new(), implication_of(ImplicationRule::S14)));
    }
    for other in p {
        if other.e == member.e && implies(&member.phi, &other.phi, STANDARD) == Verdict::Holds {
            return Ok((vec![other.clone()], implication_of(ImplicationRule::S18)));
        }
    }
    let operands = operands_of(&member.e);
    if operands.is_empty() {
        return Err(vec![member.e.clone()]);
    }
    let mut lacking = Vec::new();
    let mut proved = Vec::new();
    for e in operands {
        let part = Member { phi: member.phi.clone(), e };
        match prove_member(p, &part) {
            Ok((s, evidence)) => proved.push((s, vec![part], evidence)),
            Err(more) => lacking.extend(more),
        }
    }
    if !lacking.is_empty() {
        return Err(lacking);
    }
    let (s, s2, first) = unite(proved);
    let evidence = implication_of(ImplicationRule::S17 {
        s: s.clone(),
        s2: s2.clone(),
        t: s2,
        first,
        second: implication_of(ImplicationRule::S19),
    });
    Ok((s, evidence))
}
