//! Trees to words (document 01, "Layout"), for the generator.

use super::syntax::*;
use super::words::{bytes_of, pack, payload_of};

pub fn arith(a: &Arith, out: &mut Vec<u32>) {
    match a {
        Arith::Constant(c) => out.push(pack(1, payload_of(*c))),
        Arith::Scalar(x) => out.push(pack(2, *x)),
        Arith::Operate(o, left, right) => {
            out.push(pack(3, *o as u32));
            arith(left, out);
            arith(right, out);
        }
        Arith::Select(h, index) => {
            out.push(pack(4, 0));
            array(h, out);
            arith(index, out);
        }
    }
}

pub fn boolean(b: &Bool, out: &mut Vec<u32>) {
    match b {
        Bool::Compare(c, left, right) => {
            out.push(pack(8, *c as u32));
            arith(left, out);
            arith(right, out);
        }
        Bool::Truth(t) => out.push(pack(9, u32::from(*t))),
        Bool::And(left, right) => {
            out.push(pack(10, 0));
            boolean(left, out);
            boolean(right, out);
        }
        Bool::Or(left, right) => {
            out.push(pack(11, 0));
            boolean(left, out);
            boolean(right, out);
        }
        Bool::Not(inner) => {
            out.push(pack(12, 0));
            boolean(inner, out);
        }
    }
}

pub fn array(h: &Array, out: &mut Vec<u32>) {
    match h {
        Array::Identifier(name) => out.push(pack(16, *name)),
        Array::Zero => out.push(pack(17, 0)),
        Array::Update(inner, index, value) => {
            out.push(pack(18, 0));
            array(inner, out);
            arith(index, out);
            arith(value, out);
        }
    }
}

pub fn expression(e: &Expression, out: &mut Vec<u32>) {
    match e {
        Expression::Arith(a) => arith(a, out),
        Expression::Bool(b) => boolean(b, out),
        Expression::Array(h) => array(h, out),
    }
}

pub fn command(c: &Command, out: &mut Vec<u32>) {
    match &c.form {
        Form::Skip => out.push(pack(24, 0)),
        Form::Sequence(a, b) => {
            out.push(pack(25, 0));
            command(a, out);
            command(b, out);
        }
        Form::Assert(b) => {
            out.push(pack(26, 0));
            boolean(b, out);
        }
        Form::AssignScalar(x, a) => {
            out.push(pack(27, *x));
            arith(a, out);
        }
        Form::AssignArray(h, a) => {
            out.push(pack(28, *h));
            array(a, out);
        }
        Form::If(b, then, otherwise) => {
            out.push(pack(29, 0));
            boolean(b, out);
            command(then, out);
            command(otherwise, out);
        }
        Form::While(b, body) => {
            out.push(pack(30, 0));
            boolean(b, out);
            command(body, out);
        }
        Form::For(q, m, body) => {
            out.push(pack(31, q + 32 * m));
            command(body, out);
        }
        Form::Call(p) => out.push(pack(38, *p)),
    }
}

pub fn set(s: &[Member], out: &mut Vec<u32>) {
    out.push(pack(32, s.len() as u32));
    for member in s {
        boolean(&member.phi, out);
        expression(&member.e, out);
    }
}

pub fn flow(f: &Flow, out: &mut Vec<u32>) {
    out.push(pack(33, flow_number(&f.rule)));
    match &f.rule {
        FlowRule::F1 | FlowRule::F3 | FlowRule::F4 | FlowRule::F5 | FlowRule::F10 | FlowRule::F31 => {}
        FlowRule::F2 { m, first, second } => {
            set(m, out);
            flow(first, out);
            flow(second, out);
        }
        FlowRule::F6 { s, t, phi0, then, otherwise, before: b } => {
            set(s, out);
            set(t, out);
            boolean(phi0, out);
            flow(then, out);
            flow(otherwise, out);
            before(b, out);
        }
        FlowRule::F7 { m, set: i, flow: f } => {
            set(m, out);
            implication(i, out);
            flow(f, out);
        }
        FlowRule::F8 { m, flow: f, set: i } => {
            set(m, out);
            flow(f, out);
            implication(i, out);
        }
        FlowRule::F9 { s, s2, t, t2, first, second } => {
            set(s, out);
            set(s2, out);
            set(t, out);
            set(t2, out);
            flow(first, out);
            flow(second, out);
        }
        FlowRule::F11 { before: b } => before(b, out),
        FlowRule::F12 { s, s2, phi, phi2, flow: f, before: b } => {
            set(s, out);
            set(s2, out);
            boolean(phi, out);
            boolean(phi2, out);
            flow(f, out);
            before(b, out);
        }
        FlowRule::F13 { body } => flow(body, out),
        FlowRule::F14 { d, flow: f } => {
            command(d, out);
            flow(f, out);
        }
    }
}

pub fn implication(i: &Implication, out: &mut Vec<u32>) {
    out.push(pack(34, implication_number(&i.rule)));
    match &i.rule {
        ImplicationRule::S16 { s, s2, t, t2, first, second } => {
            set(s, out);
            set(s2, out);
            set(t, out);
            set(t2, out);
            implication(first, out);
            implication(second, out);
        }
        ImplicationRule::S17 { s, s2, t, first, second } => {
            set(s, out);
            set(s2, out);
            set(t, out);
            implication(first, out);
            implication(second, out);
        }
        _ => {}
    }
}

pub fn before(b: &Before, out: &mut Vec<u32>) {
    out.push(pack(35, before_number(&b.rule)));
    match &b.rule {
        BeforeRule::B20 { phi1, phi2, then, otherwise } => {
            boolean(phi1, out);
            boolean(phi2, out);
            before(then, out);
            before(otherwise, out);
        }
        BeforeRule::B21 { phi0, body } => {
            boolean(phi0, out);
            before(body, out);
        }
        BeforeRule::B23 { phi1, first, second } => {
            boolean(phi1, out);
            before(first, out);
            before(second, out);
        }
        BeforeRule::B28 { phi1, inner } => {
            boolean(phi1, out);
            before(inner, out);
        }
        BeforeRule::B30 { d, inner } => {
            command(d, out);
            before(inner, out);
        }
        BeforeRule::B32 { inner } => before(inner, out),
        _ => {}
    }
}

pub fn flow_number(rule: &FlowRule) -> u32 {
    match rule {
        FlowRule::F1 => 1,
        FlowRule::F2 { .. } => 2,
        FlowRule::F3 => 3,
        FlowRule::F4 => 4,
        FlowRule::F5 => 5,
        FlowRule::F6 { .. } => 6,
        FlowRule::F7 { .. } => 7,
        FlowRule::F8 { .. } => 8,
        FlowRule::F9 { .. } => 9,
        FlowRule::F10 => 10,
        FlowRule::F11 { .. } => 11,
        FlowRule::F12 { .. } => 12,
        FlowRule::F13 { .. } => 13,
        FlowRule::F14 { .. } => 14,
        FlowRule::F31 => 31,
    }
}

pub fn implication_number(rule: &ImplicationRule) -> u32 {
    match rule {
        ImplicationRule::S13 => 13,
        ImplicationRule::S14 => 14,
        ImplicationRule::S15 => 15,
        ImplicationRule::S16 { .. } => 16,
        ImplicationRule::S17 { .. } => 17,
        ImplicationRule::S18 => 18,
        ImplicationRule::S19 => 19,
    }
}

pub fn before_number(rule: &BeforeRule) -> u32 {
    match rule {
        BeforeRule::B20 { .. } => 20,
        BeforeRule::B21 { .. } => 21,
        BeforeRule::B22 => 22,
        BeforeRule::B23 { .. } => 23,
        BeforeRule::B24 => 24,
        BeforeRule::B25 => 25,
        BeforeRule::B26 => 26,
        BeforeRule::B27 => 27,
        BeforeRule::B28 { .. } => 28,
        BeforeRule::B29 => 29,
        BeforeRule::B30 { .. } => 30,
        BeforeRule::B32 { .. } => 32,
    }
}

/// A whole file without procedures: 63:n, command, precondition, postcondition, evidence.
pub fn file_words(c: &Command, pre: &[Member], post: &[Member], evidence: &Flow) -> Vec<u32> {
    file_words_with(&[], c, pre, post, evidence)
}

/// A whole file with these procedures, if there are some: 62:k and theirs before the main program's command.
pub fn file_words_with(procedures: &[Procedure], c: &Command, pre: &[Member], post: &[Member], evidence: &Flow) -> Vec<u32> {
    let mut words = vec![0];
    if !procedures.is_empty() {
        words.push(pack(62, procedures.len() as u32));
    }
    for procedure in procedures {
        four_parts(&procedure.command, &procedure.pre, &procedure.post, &procedure.evidence, &mut words);
    }
    four_parts(c, pre, post, evidence, &mut words);
    words[0] = pack(63, words.len() as u32);
    words
}

/// What a procedure and the main program each have.
fn four_parts(c: &Command, pre: &[Member], post: &[Member], evidence: &Flow, out: &mut Vec<u32>) {
    command(c, out);
    set(pre, out);
    set(post, out);
    flow(evidence, out);
}

pub fn file_bytes(c: &Command, pre: &[Member], post: &[Member], evidence: &Flow) -> Vec<u8> {
    bytes_of(&file_words(c, pre, post, evidence))
}
