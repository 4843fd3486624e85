//! What a word says where it stands, and what is due after it (document 01, "Layout"): for showing files to people.
//! `read` decides what is allowed; the tests compare the two on every kind of file.

use crate::layout::settings::{Settings, HIGHEST, LOWEST};
use crate::layout::words::{constant_of, Word};

/// What may be due at a word.
#[derive(Clone, Copy, PartialEq, Eq, Debug)]
pub enum Sort {
    Arithmetic,
    Boolean,
    Array,
    Expression,
    Command,
    Set,
    Flow,
    Implication,
    Precondition,
}

impl Sort {
    pub fn name(self) -> &'static str {
        match self {
            Sort::Arithmetic => "an arithmetic expression",
            Sort::Boolean => "a boolean expression",
            Sort::Array => "an array expression",
            Sort::Expression => "an expression",
            Sort::Command => "a command",
            Sort::Set => "a set",
            Sort::Flow => "flow evidence",
            Sort::Implication => "evidence of implication between sets",
            Sort::Precondition => "evidence of a necessary precondition",
        }
    }
}

/// A word that is allowed: what it says, and the parts that follow it, each with its role.
pub struct Meaning {
    pub text: String,
    pub parts: Vec<(Sort, String)>,
}

fn says(text: impl Into<String>, parts: &[(Sort, &str)]) -> Option<Meaning> {
    let parts = parts.iter().map(|(sort, role)| (*sort, role.to_string())).collect();
    Some(Meaning { text: text.into(), parts })
}

/// None where the word's kind or payload is not allowed (refusal 5).
pub fn meaning(sort: Sort, word: Word, settings: Settings) -> Option<Meaning> {
    match sort {
        Sort::Arithmetic => arithmetic(word),
        Sort::Boolean => boolean(word),
        Sort::Array => array(word),
        Sort::Expression => arithmetic(word).or_else(|| boolean(word)).or_else(|| array(word)),
        Sort::Command => command(word),
        Sort::Set => set(word, settings),
        Sort::Flow => rule(word, 33, "flow", flow_rule(word.payload)?),
        Sort::Implication => rule(word, 34, "set", set_rule(word.payload)?),
        Sort::Precondition => rule(word, 35, "precondition", precondition_rule(word.payload)?),
    }
}

fn arithmetic(word: Word) -> Option<Meaning> {
    const TWO: [(Sort, &str); 2] = [(Sort::Arithmetic, "left"), (Sort::Arithmetic, "right")];
    match (word.kind, word.payload) {
        (1, p) => says(format!("constant {}", constant_of(p)), &[]),
        (2, p) if p < 32 => says(format!("scalar {p}"), &[]),
        (3, p) if p < 3 => says(["+", "-", "×"][p as usize], &TWO),
        (4, 0) => says("select", &[(Sort::Array, "array"), (Sort::Arithmetic, "index")]),
        _ => None,
    }
}

fn boolean(word: Word) -> Option<Meaning> {
    const NUMBERS: [(Sort, &str); 2] = [(Sort::Arithmetic, "left"), (Sort::Arithmetic, "right")];
    const TESTS: [(Sort, &str); 2] = [(Sort::Boolean, "left"), (Sort::Boolean, "right")];
    match (word.kind, word.payload) {
        (8, p) if p < 3 => says(["=", "<", "≤"][p as usize], &NUMBERS),
        (9, 0) => says("false", &[]),
        (9, 1) => says("true", &[]),
        (10, 0) => says("and", &TESTS),
        (11, 0) => says("or", &TESTS),
        (12, 0) => says("not", &[(Sort::Boolean, "operand")]),
        _ => None,
    }
}

fn array(word: Word) -> Option<Meaning> {
    let parts = [(Sort::Array, "array"), (Sort::Arithmetic, "index"), (Sort::Arithmetic, "value")];
    match (word.kind, word.payload) {
        (16, p) if p < 32 => says(format!("array {p}"), &[]),
        (17, 0) => says("the array that is zero everywhere", &[]),
        (18, 0) => says("update", &parts),
        _ => None,
    }
}

fn command(word: Word) -> Option<Meaning> {
    let test = (Sort::Boolean, "test");
    match (word.kind, word.payload) {
        (24, 0) => says("skip", &[]),
        (25, 0) => says("sequence", &[(Sort::Command, "first"), (Sort::Command, "second")]),
        (26, 0) => says("assert", &[test]),
        (27, p) if p < 32 => says(format!("assign scalar {p}"), &[(Sort::Arithmetic, "right side")]),
        (28, p) if p < 32 => says(format!("assign array {p}"), &[(Sort::Array, "right side")]),
        (29, 0) => says("if", &[test, (Sort::Command, "then"), (Sort::Command, "else")]),
        (30, 0) => says("while", &[test, (Sort::Command, "body")]),
        (31, p) if p < 32 * 32 => {
            says(format!("for scalar {} from 1 up to scalar {}", p % 32, p / 32), &[(Sort::Command, "body")])
        }
        (38, p) => says(format!("call procedure {p}"), &[]),
        _ => None,
    }
}

fn set(word: Word, settings: Settings) -> Option<Meaning> {
    if word.kind != 32 || u64::from(word.payload) > settings.members {
        return None;
    }
    let n = word.payload;
    let mut parts = Vec::new();
    for i in 1..=n {
        parts.push((Sort::Boolean, format!("member {i}, antecedent")));
        parts.push((Sort::Expression, format!("member {i}, consequent")));
    }
    Some(Meaning { text: format!("set of {n} member{}", if n == 1 { "" } else { "s" }), parts })
}

/// What a rule asks for, and its carried items and children in order.
type Rule = (&'static str, &'static [(Sort, &'static str)]);

fn rule(word: Word, kind: u32, name: &str, rule: Rule) -> Option<Meaning> {
    if word.kind != kind {
        return None;
    }
    says(format!("{name} rule {}, {}", word.payload, rule.0), rule.1)
}

/// Rules 1 to 14 and 31, kind 33.
pub fn flow_rule(number: u32) -> Option<Rule> {
    use Sort::*;
    Some(match number {
        1 => ("skip: P same as Q", &[]),
        2 => ("sequence: by way of M", &[(Set, "M"), (Flow, "(P, C1, M)"), (Flow, "(M, C2, Q)")]),
        3 => ("scalar assignment: P same as Q with the right side for the scalar", &[]),
        4 => ("array assignment: P same as Q with the right side for the array", &[]),
        5 => ("assert: P same as Q under B", &[]),
        6 => (
            "if: P same as S under B, T under ¬B and φ0 ⇒ B together",
            &[(Set, "S"), (Set, "T"), (Boolean, "φ0"), (Flow, "(S, C1, Q)"), (Flow, "(T, C2, Q)"), (Precondition, "(φ0, C, φ)")],
        ),
        7 => ("P implies M", &[(Set, "M"), (Implication, "(P, M)"), (Flow, "(M, C, Q)")]),
        8 => ("M implies Q", &[(Set, "M"), (Flow, "(P, C, M)"), (Implication, "(M, Q)")]),
        9 => (
            "P same as S ∪ T, Q same as S' ∪ T'",
            &[(Set, "S"), (Set, "S'"), (Set, "T"), (Set, "T'"), (Flow, "(S, C, S')"), (Flow, "(T, C, T')")],
        ),
        10 => ("P same as Q; no identifier of Q is modified", &[]),
        11 => ("one member each, same E; none of E is modified", &[(Precondition, "(φ, C, φ')")]),
        12 => (
            "P same as S under φ, Q same as S' under φ'",
            &[(Set, "S"), (Set, "S'"), (Boolean, "φ"), (Boolean, "φ'"), (Flow, "(S, C, S')"), (Precondition, "(φ, C, φ')")],
        ),
        13 => ("while: P same as Q; true ⇒ B stands in P", &[(Flow, "(P, C1, Q)")]),
        14 => ("for: by way of the command D that it means", &[(Command, "D"), (Flow, "(P, D, Q)")]),
        31 => ("call: P same as the procedure's precondition, Q same as its postcondition", &[]),
        _ => return None,
    })
}

/// Rules 13 to 19 of set goals, kind 34.
pub fn set_rule(number: u32) -> Option<Rule> {
    use Sort::*;
    Some(match number {
        13 => ("each of Q stands in P", &[]),
        14 => ("P empty; each antecedent of Q implies false", &[]),
        15 => ("P empty; Q one member, no identifier in E", &[]),
        16 => (
            "P same as S ∪ T, Q same as S' ∪ T'",
            &[(Set, "S"), (Set, "S'"), (Set, "T"), (Set, "T'"), (Implication, "(S, S')"), (Implication, "(T, T')")],
        ),
        17 => (
            "P same as (T without S') ∪ S",
            &[(Set, "S"), (Set, "S'"), (Set, "T"), (Implication, "(S, S')"), (Implication, "(T, Q)")],
        ),
        18 => ("one member each, same E; Q's antecedent implies P's", &[]),
        19 => ("Q one member; P same as its antecedent ⇒ each operand of E", &[]),
        _ => return None,
    })
}

/// Rules 20 to 30 and 32 of precondition goals, kind 35.
pub fn precondition_rule(number: u32) -> Option<Rule> {
    use Sort::*;
    Some(match number {
        20 => (
            "if: φ is (φ1 ∧ B) ∨ (φ2 ∧ ¬B)",
            &[(Boolean, "φ1"), (Boolean, "φ2"), (Precondition, "(φ1, C1, φ')"), (Precondition, "(φ2, C2, φ')")],
        ),
        21 => ("while: φ0 ∧ B implies φ, φ' ∧ ¬B implies φ", &[(Boolean, "φ0"), (Precondition, "(φ0, C1, φ)")]),
        22 => ("skip: φ is φ'", &[]),
        23 => ("sequence: by way of φ1", &[(Boolean, "φ1"), (Precondition, "(φ, C1, φ1)"), (Precondition, "(φ1, C2, φ')")]),
        24 => ("scalar assignment: φ is φ' with the right side for the scalar", &[]),
        25 => ("array assignment: φ is φ' with the right side for the array", &[]),
        26 => ("assert: φ is φ' ∧ B", &[]),
        27 => ("φ is φ', nothing in it modified", &[]),
        28 => ("φ1 implies φ", &[(Boolean, "φ1"), (Precondition, "(φ1, C, φ')")]),
        29 => ("φ is true", &[]),
        30 => ("for: by way of the command D that it means", &[(Command, "D"), (Precondition, "(φ, D, φ')")]),
        32 => ("call: by way of the procedure's body", &[(Precondition, "(φ, body, φ')")]),
        _ => return None,
    })
}

/// The refusals of the check (document 01, "Judging order", and requests [3] and [6]), under these settings.
pub fn refusal_meaning(number: u32, settings: Settings) -> String {
    let Settings { comparisons, depth, .. } = settings;
    let fixed = match number {
        1 => "the byte count is 0, over 32,768 or no multiple of 4",
        2 => "word 0 is not 63:n, n the words in the file",
        3 => "the file ends where a word is due",
        4 => return format!("this word is deeper than {depth}"),
        5 => "this word's kind or payload isn't allowed here",
        6 => "words follow the evidence",
        7 => "this for has q = m or a body that modifies q or m",
        8 => "a condition of this rule fails",
        9 => return format!("a condition of this rule is an implication over more than {comparisons} comparisons"),
        16 => "this call's number is not below its own procedure's, or not in the table",
        19 => return format!("a setting is outside its range: {}", ranges()),
        _ => "no refusal of the check",
    };
    fixed.to_string()
}

/// The ranges of the settings.
fn ranges() -> String {
    let names = ["comparisons", "depth", "members"];
    let range = |i: usize| format!("{} {} to {}", names[i], LOWEST.numbers()[i], HIGHEST.numbers()[i]);
    [0, 1, 2].map(range).join(", ")
}
