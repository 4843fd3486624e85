//! A file as text for `flowasm` that can be followed by hand: an assignment, a member or a carried assertion to a
//! line, and above each evidence word its goal in readable notation. Evidence words are numbered as a tree: 1, its
//! children 1.1, 1.2 and so on; those of procedure 0 are 0:1, 0:1.1 and so on.

use super::meaning::{flow_rule, precondition_rule, refusal_meaning, set_rule};
use super::show::Names;
use crate::layout::settings::STANDARD;
use crate::layout::syntax::*;
use crate::layout::words::{constant_of, take_apart, Refusal};
use crate::layout::write;
use crate::naive::judge::{judge, Answer};

/// None where a rule with children stands at a command that is not its own: they have no goals then.
pub fn annotate(file: &File, names: &Names) -> Option<String> {
    let refusal = match judge(file, STANDARD) {
        Answer::Accepted(_) => None,
        Answer::Refused(refusal) => Some(refusal),
    };
    let mut text = Text { names, procedures: &file.procedures, refusal, out: String::new() };
    text.line(0, "63:*", "the count of the words, worked out");
    if !file.procedures.is_empty() {
        text.line(0, &format!("62:{}", file.procedures.len()), "the count of the procedures");
    }
    for (i, procedure) in file.procedures.iter().enumerate() {
        text.procedure(i, procedure)?;
    }
    text.note(0, "\nThe program C");
    text.command(0, &file.command);
    text.note(0, "\nThe precondition P and the postcondition Q");
    text.set(0, "P", &file.pre);
    text.set(0, "Q", &file.post);
    text.note(0, "\nThe evidence");
    text.flow("1", (&file.pre, &file.command, &file.post), &file.evidence)?;
    Some(text.out)
}

/// Words as `kind:payload`.
fn spelled(write: impl Fn(&mut Vec<u32>)) -> String {
    let mut words = Vec::new();
    write(&mut words);
    let mut parts = Vec::new();
    for word in words {
        let word = take_apart(0, word);
        parts.push(match word.kind {
            1 => format!("1:{}", constant_of(word.payload)),
            kind => format!("{kind}:{}", word.payload),
        });
    }
    parts.join(" ")
}

struct Text<'a> {
    names: &'a Names,
    procedures: &'a [Procedure],
    /// The evidence word that is refused, if one is.
    refusal: Option<Refusal>,
    out: String,
}

/// A goal of flow evidence: P, C, Q.
type Triple<'a> = (&'a Set, &'a Command, &'a Set);
/// A goal of precondition evidence: φ, C, φ'.
type Needed<'a> = (&'a Bool, &'a Command, &'a Bool);

/// The indent of an evidence word is that of its number.
fn depth_of(number: &str) -> usize {
    number.matches('.').count()
}

impl Text<'_> {
    fn line(&mut self, depth: usize, words: &str, comment: &str) {
        let left = format!("{}{words}", "  ".repeat(depth));
        self.out.push_str(&format!("{left:<44}  # {comment}\n"));
    }

    /// A comment line; empty lines before it are kept.
    fn note(&mut self, depth: usize, comment: &str) {
        let text = comment.trim_start_matches('\n');
        self.out.push_str(&"\n".repeat(comment.len() - text.len()));
        self.out.push_str(&format!("{}# {text}\n", "  ".repeat(depth)));
    }

    fn procedure(&mut self, i: usize, procedure: &Procedure) -> Option<()> {
        self.note(0, &format!("\nProcedure {i}: its body C"));
        self.command(0, &procedure.command);
        self.note(0, "\nIts precondition P and its postcondition Q");
        self.set(0, "P", &procedure.pre);
        self.set(0, "Q", &procedure.post);
        self.note(0, "\nIts evidence");
        self.flow(&format!("{i}:1"), (&procedure.pre, &procedure.command, &procedure.post), &procedure.evidence)
    }

    fn command(&mut self, depth: usize, c: &Command) {
        match &c.form {
            Form::Sequence(a, b) => {
                self.line(depth, "25:0", &self.names.head(c));
                self.command(depth + 1, a);
                self.command(depth + 1, b);
            }
            Form::If(test, then, otherwise) => {
                let words = spelled(|out| write::boolean(test, out));
                self.line(depth, &format!("29:0  {words}"), &self.names.head(c));
                self.command(depth + 1, then);
                self.note(depth, "else");
                self.command(depth + 1, otherwise);
            }
            Form::While(test, body) => {
                let words = spelled(|out| write::boolean(test, out));
                self.line(depth, &format!("30:0  {words}"), &self.names.head(c));
                self.command(depth + 1, body);
            }
            Form::For(q, m, body) => {
                self.line(depth, &format!("31:{}", q + 32 * m), &self.names.head(c));
                self.command(depth + 1, body);
            }
            _ => {
                let words = spelled(|out| write::command(c, out));
                let comment = self.names.command(c);
                self.line(depth, &words, &comment);
            }
        }
    }

    fn set(&mut self, depth: usize, role: &str, set: &[Member]) {
        self.line(depth, &format!("32:{}", set.len()), &format!("{role}, a set"));
        for member in set {
            let phi = spelled(|out| write::boolean(&member.phi, out));
            let e = spelled(|out| write::expression(&member.e, out));
            let comment = self.names.member(member);
            self.line(depth + 1, &format!("{phi}  {e}"), &comment);
        }
    }

    fn assertion(&mut self, depth: usize, role: &str, phi: &Bool) {
        let words = spelled(|out| write::boolean(phi, out));
        let comment = format!("{role}: {}", self.names.boolean(phi));
        self.line(depth, &words, &comment);
    }

    /// The members of a goal's set, the first beside the set's letter.
    fn goal_set(&mut self, depth: usize, letter: &str, set: &[Member]) {
        let mut members: Vec<String> = set.iter().map(|member| self.names.member(member)).collect();
        if members.is_empty() {
            members.push("(empty)".to_string());
        }
        for (i, member) in members.iter().enumerate() {
            let letter = if i == 0 { letter } else { " " };
            self.note(depth, &format!("  {letter}  {member}"));
        }
    }

    fn goal_command(&mut self, depth: usize, c: &Command) {
        let whole = self.names.command(c);
        let short: String = whole.chars().take(90).collect();
        let cut = if short == whole { "" } else { " .." };
        self.note(depth, &format!("  C  {short}{cut}"));
    }

    /// The line that opens an evidence word's part.
    fn head(&mut self, number: &str, place: usize, name: &str, rule: u32, asks: &str) {
        self.note(depth_of(number), &format!("\n[{number}] at word {place}: {name} rule {rule}, {asks}"));
    }

    fn word(&mut self, number: &str, place: usize, kind: u32, rule: u32) {
        let comment = match self.refusal.filter(|refusal| refusal.place == place) {
            None => format!("[{number}]"),
            Some(r) => format!("[{number}] REFUSED {}: {}", r.number, refusal_meaning(r.number, STANDARD)),
        };
        self.line(depth_of(number), &format!("{kind}:{rule}"), &comment);
    }

    fn sets(&mut self, number: &str, sets: &[(&str, &Set)]) {
        for (role, set) in sets {
            self.set(depth_of(number) + 1, role, set);
        }
    }

    fn flow(&mut self, number: &str, goal: Triple, evidence: &Flow) -> Option<()> {
        let depth = depth_of(number);
        let rule = write::flow_number(&evidence.rule);
        self.head(number, evidence.place, "flow", rule, flow_rule(rule)?.0);
        self.goal_set(depth, "P", goal.0);
        self.goal_command(depth, goal.1);
        self.goal_set(depth, "Q", goal.2);
        self.word(number, evidence.place, 33, rule);
        self.command_rule(number, goal, evidence)
    }

    /// Carried items, then children with their goals: the rules of a command.
    fn command_rule(&mut self, number: &str, (p, c, q): Triple, evidence: &Flow) -> Option<()> {
        let (one, two) = (format!("{number}.1"), format!("{number}.2"));
        match (&evidence.rule, &c.form) {
            (FlowRule::F2 { m, first, second }, Form::Sequence(c1, c2)) => {
                self.sets(number, &[("M", m)]);
                self.flow(&one, (p, c1, m), first)?;
                self.flow(&two, (m, c2, q), second)
            }
            (FlowRule::F6 { s, t, phi0, then, otherwise, before }, Form::If(_, c1, c2)) => {
                self.sets(number, &[("S", s), ("T", t)]);
                self.assertion(depth_of(number) + 1, "φ0", phi0);
                self.flow(&one, (s, c1, q), then)?;
                self.flow(&two, (t, c2, q), otherwise)?;
                self.before(&format!("{number}.3"), (phi0, c, &q.first()?.phi), before)
            }
            (FlowRule::F13 { body }, Form::While(_, c1)) => self.flow(&one, (p, c1, q), body),
            (FlowRule::F14 { d, flow }, Form::For(..)) => {
                self.command(depth_of(number) + 1, d);
                self.flow(&one, (p, d, q), flow)
            }
            (FlowRule::F2 { .. } | FlowRule::F6 { .. } | FlowRule::F13 { .. } | FlowRule::F14 { .. }, _) => None,
            _ => self.other_rule(number, (p, c, q), evidence),
        }
    }

    /// The same for the rules of any command.
    fn other_rule(&mut self, number: &str, (p, c, q): Triple, evidence: &Flow) -> Option<()> {
        let (one, two) = (format!("{number}.1"), format!("{number}.2"));
        match &evidence.rule {
            FlowRule::F7 { m, set, flow } => {
                self.sets(number, &[("M", m)]);
                self.implication(&one, p, m, set)?;
                self.flow(&two, (m, c, q), flow)
            }
            FlowRule::F8 { m, flow, set } => {
                self.sets(number, &[("M", m)]);
                self.flow(&one, (p, c, m), flow)?;
                self.implication(&two, m, q, set)
            }
            FlowRule::F9 { s, s2, t, t2, first, second } => {
                self.sets(number, &[("S", s), ("S'", s2), ("T", t), ("T'", t2)]);
                self.flow(&one, (s, c, s2), first)?;
                self.flow(&two, (t, c, t2), second)
            }
            FlowRule::F11 { before } => self.before(&one, (&p.first()?.phi, c, &q.first()?.phi), before),
            FlowRule::F12 { s, s2, phi, phi2, flow, before } => {
                self.sets(number, &[("S", s), ("S'", s2)]);
                self.assertion(depth_of(number) + 1, "φ", phi);
                self.assertion(depth_of(number) + 1, "φ'", phi2);
                self.flow(&one, (s, c, s2), flow)?;
                self.before(&two, (phi, c, phi2), before)
            }
            _ => Some(()),
        }
    }

    fn implication(&mut self, number: &str, p: &Set, q: &Set, evidence: &Implication) -> Option<()> {
        let rule = write::implication_number(&evidence.rule);
        self.head(number, evidence.place, "set", rule, set_rule(rule)?.0);
        self.goal_set(depth_of(number), "P", p);
        self.goal_set(depth_of(number), "Q", q);
        self.word(number, evidence.place, 34, rule);
        let (one, two) = (format!("{number}.1"), format!("{number}.2"));
        match &evidence.rule {
            ImplicationRule::S16 { s, s2, t, t2, first, second } => {
                self.sets(number, &[("S", s), ("S'", s2), ("T", t), ("T'", t2)]);
                self.implication(&one, s, s2, first)?;
                self.implication(&two, t, t2, second)
            }
            ImplicationRule::S17 { s, s2, t, first, second } => {
                self.sets(number, &[("S", s), ("S'", s2), ("T", t)]);
                self.implication(&one, s, s2, first)?;
                self.implication(&two, t, q, second)
            }
            _ => Some(()),
        }
    }

    fn before(&mut self, number: &str, (phi, c, phi2): Needed, evidence: &Before) -> Option<()> {
        let depth = depth_of(number);
        let rule = write::before_number(&evidence.rule);
        self.head(number, evidence.place, "precondition", rule, precondition_rule(rule)?.0);
        let (before, after) = (self.names.boolean(phi), self.names.boolean(phi2));
        self.note(depth, &format!("  φ  {before}"));
        self.goal_command(depth, c);
        self.note(depth, &format!("  φ' {after}"));
        self.word(number, evidence.place, 35, rule);
        self.before_parts(number, (phi, c, phi2), evidence)
    }

    fn before_parts(&mut self, number: &str, (phi, c, phi2): Needed, evidence: &Before) -> Option<()> {
        let depth = depth_of(number) + 1;
        let (one, two) = (format!("{number}.1"), format!("{number}.2"));
        match (&evidence.rule, &c.form) {
            (BeforeRule::B20 { phi1: left, phi2: right, then, otherwise }, Form::If(_, c1, c2)) => {
                self.assertion(depth, "φ1", left);
                self.assertion(depth, "φ2", right);
                self.before(&one, (left, c1, phi2), then)?;
                self.before(&two, (right, c2, phi2), otherwise)
            }
            (BeforeRule::B21 { phi0, body }, Form::While(_, c1)) => {
                self.assertion(depth, "φ0", phi0);
                self.before(&one, (phi0, c1, phi), body)
            }
            (BeforeRule::B23 { phi1, first, second }, Form::Sequence(c1, c2)) => {
                self.assertion(depth, "φ1", phi1);
                self.before(&one, (phi, c1, phi1), first)?;
                self.before(&two, (phi1, c2, phi2), second)
            }
            (BeforeRule::B28 { phi1, inner }, _) => {
                self.assertion(depth, "φ1", phi1);
                self.before(&one, (phi1, c, phi2), inner)
            }
            (BeforeRule::B30 { d, inner }, Form::For(..)) => {
                self.command(depth, d);
                self.before(&one, (phi, d, phi2), inner)
            }
            (BeforeRule::B32 { inner }, Form::Call(p)) => {
                let body = &self.procedures.get(*p as usize)?.command;
                self.before(&one, (phi, body, phi2), inner)
            }
            (BeforeRule::B20 { .. } | BeforeRule::B21 { .. } | BeforeRule::B23 { .. } | BeforeRule::B30 { .. }, _) => None,
            (BeforeRule::B32 { .. }, _) => None,
            _ => Some(()),
        }
    }
}
