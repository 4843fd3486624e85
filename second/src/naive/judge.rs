//! Document 01, "Rules" and refusals 8 and 9 of "Judging order": one pass
//! over the evidence words in file order; at a word its conditions are tried
//! as written, then its children follow. Request [3]: the evidence of each
//! procedure goes before that of the main program. Request [2]: antecedents
//! and the assertions of rules 20 to 32 are compared plain (`plain.rs`);
//! consequents, and commands in rules 14 and 30, are compared by words.

use super::implies::{implies, Verdict};
use super::modified::{modified_by, of_bool, of_expression, of_set};
use super::plain::{equal, plain};
use super::read::read;
use super::replace::{self, Replacement};
use super::sets::*;
use crate::layout::settings::{Settings, STANDARD};
use crate::layout::syntax::*;
use crate::layout::words::{refuse, Refusal};

/// What the check answers.
#[derive(Clone, Copy, PartialEq, Eq, Debug)]
pub enum Answer {
    /// The count of evidence words.
    Accepted(usize),
    Refused(Refusal),
}

impl Answer {
    /// The line of `flowcheck`.
    pub fn line(&self) -> String {
        match self {
            Answer::Accepted(count) => format!("accepted {count}"),
            Answer::Refused(r) => format!("refused {} {}", r.number, r.place),
        }
    }

    /// What the C build tool gets.
    pub fn packed(&self) -> u32 {
        match self {
            Answer::Accepted(count) => *count as u32,
            Answer::Refused(r) => r.number * 65_536 + r.place as u32,
        }
    }
}

/// The line of a packed answer.
pub fn line_of(packed: u32) -> String {
    if packed < 65_536 {
        format!("accepted {packed}")
    } else {
        format!("refused {} {}", packed / 65_536, packed % 65_536)
    }
}

/// "Only the C call and `flowcheck` take no settings and keep" the old ones.
pub fn check(bytes: &[u8]) -> Answer {
    check_settings(bytes, STANDARD)
}

/// Request [6]: the check that is given settings.
pub fn check_settings(bytes: &[u8], settings: Settings) -> Answer {
    match read(bytes, settings) {
        Err(refusal) => Answer::Refused(refusal),
        Ok(file) => judge(&file, settings),
    }
}

pub fn judge(file: &File, settings: Settings) -> Answer {
    match judge_all(file, settings) {
        Err(refusal) => Answer::Refused(refusal),
        Ok(count) => Answer::Accepted(count),
    }
}

/// The evidence of each procedure in table order, then that of the main program.
fn judge_all(file: &File, settings: Settings) -> Judged {
    let judge = Judge { procedures: &file.procedures, settings };
    let mut count = 0;
    for procedure in &file.procedures {
        count += judge.flow(&procedure.pre, &procedure.command, &procedure.post, &procedure.evidence)?;
    }
    count += judge.flow(&file.pre, &file.command, &file.post, &file.evidence)?;
    Ok(count)
}

/// From the first word place of a part to the one past its last.
type Words = (usize, usize);

/// The program, the precondition and the postcondition of an accepted file.
fn parts(bytes: &[u8], settings: Settings) -> Option<[Words; 3]> {
    match (check_settings(bytes, settings), read(bytes, settings)) {
        (Answer::Accepted(_), Ok(file)) => {
            let program = (file.command.place, file.pre_words.0);
            Some([program, file.pre_words, file.post_words])
        }
        _ => None,
    }
}

/// A part as that part of the caller's own bytes; empty if refused.
fn part(bytes: &[u8], which: usize, settings: Settings) -> &[u8] {
    parts(bytes, settings).map_or(&[], |parts| &bytes[4 * parts[which].0..4 * parts[which].1])
}

pub fn program(bytes: &[u8], settings: Settings) -> &[u8] {
    part(bytes, 0, settings)
}

pub fn precondition(bytes: &[u8], settings: Settings) -> &[u8] {
    part(bytes, 1, settings)
}

pub fn postcondition(bytes: &[u8], settings: Settings) -> &[u8] {
    part(bytes, 2, settings)
}

/// What C gets of the program, the precondition and the postcondition: first place × 65,536 + the place past the last, or 0.
pub fn packed_parts(bytes: &[u8], settings: Settings) -> [u32; 3] {
    let packed = |(first, past): Words| first as u32 * 65_536 + past as u32;
    parts(bytes, settings).map_or([0; 3], |parts| parts.map(packed))
}

/// The count of evidence words, or the first refusal.
type Judged = Result<usize, Refusal>;

/// A condition: refusal 8 where it is false.
fn need(condition: bool, place: usize) -> Result<(), Refusal> {
    if condition {
        Ok(())
    } else {
        refuse(8, place)
    }
}

/// An implication as a condition: refusal 9 where it is too large.
fn need_implies(left: &Bool, right: &Bool, place: usize, settings: Settings) -> Result<(), Refusal> {
    match implies(left, right, settings) {
        Verdict::Holds => Ok(()),
        Verdict::Fails => refuse(8, place),
        Verdict::TooLarge => refuse(9, place),
    }
}

fn one(set: &Set, place: usize) -> Result<&Member, Refusal> {
    need(set.len() == 1, place)?;
    Ok(&set[0])
}

/// The judge of one file: its procedures are what calls mean.
struct Judge<'a> {
    procedures: &'a [Procedure],
    settings: Settings,
}

impl Judge<'_> {
    /// Goal (P, C, Q): rules 1 to 14 and 31 of flow.
    fn flow(&self, p: &Set, c: &Command, q: &Set, evidence: &Flow) -> Judged {
        let place = evidence.place;
        match &evidence.rule {
            FlowRule::F7 { m, set, flow: inner } => {
                let a = implication(p, m, set, self.settings)?;
                let b = self.flow(m, c, q, inner)?;
                Ok(1 + a + b)
            }
            FlowRule::F8 { m, flow: inner, set } => {
                let a = self.flow(p, c, m, inner)?;
                let b = implication(m, q, set, self.settings)?;
                Ok(1 + a + b)
            }
            FlowRule::F9 { s, s2, t, t2, first, second } => {
                need(same(p, &union(s, t)), place)?;
                need(same(q, &union(s2, t2)), place)?;
                let a = self.flow(s, c, s2, first)?;
                let b = self.flow(t, c, t2, second)?;
                Ok(1 + a + b)
            }
            FlowRule::F10 => {
                need(same(p, q), place)?;
                need(!of_set(q).meets(&modified_by(c, self.procedures)), place)?;
                Ok(1)
            }
            FlowRule::F11 { before } => {
                let p = one(p, place)?;
                let q = one(q, place)?;
                need(p.e == q.e, place)?;
                need(!of_expression(&q.e).meets(&modified_by(c, self.procedures)), place)?;
                let a = self.necessary(&p.phi, c, &q.phi, before)?;
                Ok(1 + a)
            }
            FlowRule::F12 { s, s2, phi, phi2, flow: inner, before } => {
                need(same(p, &under(s, phi)), place)?;
                need(same(q, &under(s2, phi2)), place)?;
                let a = self.flow(s, c, s2, inner)?;
                let b = self.necessary(phi, c, phi2, before)?;
                Ok(1 + a + b)
            }
            _ => self.flow_by_command(p, c, q, evidence),
        }
    }

    /// The rules that are for one command each: 1 to 6, 13, 14 and 31.
    fn flow_by_command(&self, p: &Set, c: &Command, q: &Set, evidence: &Flow) -> Judged {
        let place = evidence.place;
        match (&evidence.rule, &c.form) {
            (FlowRule::F1, Form::Skip) => {
                need(same(p, q), place)?;
                Ok(1)
            }
            (FlowRule::F2 { m, first, second }, Form::Sequence(c1, c2)) => {
                let a = self.flow(p, c1, m, first)?;
                let b = self.flow(m, c2, q, second)?;
                Ok(1 + a + b)
            }
            (FlowRule::F3, Form::AssignScalar(x, right)) => {
                let replaced = replace::in_set(q, Replacement::Scalar(*x, right));
                need(same(p, &replaced), place)?;
                Ok(1)
            }
            (FlowRule::F4, Form::AssignArray(h, right)) => {
                let replaced = replace::in_set(q, Replacement::Array(*h, right));
                need(same(p, &replaced), place)?;
                Ok(1)
            }
            (FlowRule::F5, Form::Assert(b)) => {
                need(same(p, &under(q, b)), place)?;
                Ok(1)
            }
            (FlowRule::F6 { s, t, phi0, then, otherwise, before }, Form::If(b, c1, c2)) => {
                let phi = &one(q, place)?.phi;
                let test = Member { phi: phi0.clone(), e: Expression::Bool(b.clone()) };
                let both = union(&under(s, b), &under(t, &not(b.clone())));
                need(same(p, &union(&both, &[test])), place)?;
                let x = self.flow(s, c1, q, then)?;
                let y = self.flow(t, c2, q, otherwise)?;
                let z = self.necessary(phi0, c, phi, before)?;
                Ok(1 + x + y + z)
            }
            (FlowRule::F13 { body }, Form::While(b, c1)) => {
                need(same(p, q), place)?;
                let test = Member { phi: Bool::Truth(true), e: Expression::Bool(b.clone()) };
                need(stands_in(&test, p), place)?;
                let a = self.flow(p, c1, q, body)?;
                Ok(1 + a)
            }
            (FlowRule::F14 { d, flow: inner }, Form::For(x, m, body)) => {
                need(*d == meaning_of_for(*x, *m, body), place)?;
                let a = self.flow(p, d, q, inner)?;
                Ok(1 + a)
            }
            // "C calls p, P is the same as its precondition, Q as its postcondition."
            (FlowRule::F31, Form::Call(number)) => {
                let procedure = &self.procedures[*number as usize];
                need(same(p, &procedure.pre), place)?;
                need(same(q, &procedure.post), place)?;
                Ok(1)
            }
            // The rule is for another command.
            _ => refuse(8, place),
        }
    }

    /// Goal (φ, C, φ'): rules 20 to 30 and 32 of necessary precondition.
    fn necessary(&self, phi: &Bool, c: &Command, phi2: &Bool, evidence: &Before) -> Judged {
        let place = evidence.place;
        match (&evidence.rule, &c.form) {
            (BeforeRule::B20 { phi1: left, phi2: right, then, otherwise }, Form::If(b, c1, c2)) => {
                let made = or(and(left.clone(), b.clone()), and(right.clone(), not(b.clone())));
                need(equal(phi, &made), place)?;
                let x = self.necessary(left, c1, phi2, then)?;
                let y = self.necessary(right, c2, phi2, otherwise)?;
                Ok(1 + x + y)
            }
            (BeforeRule::B21 { phi0, body }, Form::While(b, c1)) => {
                need_implies(&and(phi0.clone(), b.clone()), phi, place, self.settings)?;
                need_implies(&and(phi2.clone(), not(b.clone())), phi, place, self.settings)?;
                let x = self.necessary(phi0, c1, phi, body)?;
                Ok(1 + x)
            }
            (BeforeRule::B22, Form::Skip) => {
                need(equal(phi, phi2), place)?;
                Ok(1)
            }
            (BeforeRule::B23 { phi1, first, second }, Form::Sequence(c1, c2)) => {
                let x = self.necessary(phi, c1, phi1, first)?;
                let y = self.necessary(phi1, c2, phi2, second)?;
                Ok(1 + x + y)
            }
            (BeforeRule::B24, Form::AssignScalar(x, right)) => {
                need(equal(phi, &replace::in_bool(phi2, Replacement::Scalar(*x, right))), place)?;
                Ok(1)
            }
            (BeforeRule::B25, Form::AssignArray(h, right)) => {
                need(equal(phi, &replace::in_bool(phi2, Replacement::Array(*h, right))), place)?;
                Ok(1)
            }
            (BeforeRule::B26, Form::Assert(b)) => {
                need(equal(phi, &and(phi2.clone(), b.clone())), place)?;
                Ok(1)
            }
            (BeforeRule::B27, _) => {
                need(equal(phi, phi2), place)?;
                need(!of_bool(phi2).meets(&modified_by(c, self.procedures)), place)?;
                Ok(1)
            }
            (BeforeRule::B28 { phi1, inner }, _) => {
                need_implies(phi1, phi, place, self.settings)?;
                let x = self.necessary(phi1, c, phi2, inner)?;
                Ok(1 + x)
            }
            (BeforeRule::B29, _) => {
                need(plain(phi) == Bool::Truth(true), place)?;
                Ok(1)
            }
            (BeforeRule::B30 { d, inner }, Form::For(x, m, body)) => {
                need(*d == meaning_of_for(*x, *m, body), place)?;
                let x = self.necessary(phi, d, phi2, inner)?;
                Ok(1 + x)
            }
            // "The one child is (φ, body, φ')."
            (BeforeRule::B32 { inner }, Form::Call(number)) => {
                let x = self.necessary(phi, &self.procedures[*number as usize].command, phi2, inner)?;
                Ok(1 + x)
            }
            // The rule is for another command.
            _ => refuse(8, place),
        }
    }
}

/// Goal (P, Q): rules 13 to 19 of implication between sets.
fn implication(p: &Set, q: &Set, evidence: &Implication, settings: Settings) -> Judged {
    let place = evidence.place;
    match &evidence.rule {
        ImplicationRule::S13 => {
            need(each_stands_in(q, p), place)?;
            Ok(1)
        }
        ImplicationRule::S14 => {
            need(p.is_empty(), place)?;
            for member in q {
                need_implies(&member.phi, &Bool::Truth(false), place, settings)?;
            }
            Ok(1)
        }
        ImplicationRule::S15 => {
            need(p.is_empty(), place)?;
            let q = one(q, place)?;
            need(of_expression(&q.e).is_empty(), place)?;
            Ok(1)
        }
        ImplicationRule::S16 { s, s2, t, t2, first, second } => {
            need(same(p, &union(s, t)), place)?;
            need(same(q, &union(s2, t2)), place)?;
            let a = implication(s, s2, first, settings)?;
            let b = implication(t, t2, second, settings)?;
            Ok(1 + a + b)
        }
        ImplicationRule::S17 { s, s2, t, first, second } => {
            need(same(p, &union(&without(t, s2), s)), place)?;
            let a = implication(s, s2, first, settings)?;
            let b = implication(t, q, second, settings)?;
            Ok(1 + a + b)
        }
        ImplicationRule::S18 => {
            let p = one(p, place)?;
            let q = one(q, place)?;
            need(p.e == q.e, place)?;
            need_implies(&q.phi, &p.phi, place, settings)?;
            Ok(1)
        }
        ImplicationRule::S19 => {
            let q = one(q, place)?;
            let operands = operands_of(&q.e);
            need(!operands.is_empty(), place)?;
            let mut parts = Set::new();
            for e in operands {
                parts.push(Member { phi: q.phi.clone(), e });
            }
            need(same(p, &parts), place)?;
            Ok(1)
        }
    }
}

/// Rule 19: the operands of an expression of kind 3, 8, 10, 11 or 12; none
/// for the other kinds.
pub fn operands_of(e: &Expression) -> Vec<Expression> {
    match e {
        Expression::Arith(Arith::Operate(_, a, b)) => {
            vec![Expression::Arith((**a).clone()), Expression::Arith((**b).clone())]
        }
        Expression::Bool(Bool::Compare(_, a, b)) => {
            vec![Expression::Arith((**a).clone()), Expression::Arith((**b).clone())]
        }
        Expression::Bool(Bool::And(a, b)) | Expression::Bool(Bool::Or(a, b)) => {
            vec![Expression::Bool((**a).clone()), Expression::Bool((**b).clone())]
        }
        Expression::Bool(Bool::Not(a)) => vec![Expression::Bool((**a).clone())],
        _ => Vec::new(),
    }
}
