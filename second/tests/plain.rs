//! Request [2], sentence by sentence: files with the answers of the second implementation and of the fast one.

use second::compare::pairs::{try_pair, Found};
use second::fast;
use second::generate::file_prng;
use second::generate::parts::{boolean, Pool};
use second::generate::plain::booleans::Stands;
use second::generate::plain::truths::with_true;
use second::generate::plain::{changed, not_dropped, tidied};
use second::generate::prng::Prng;
use second::layout::settings::STANDARD;
use second::layout::syntax::*;
use second::naive::implies::{implies, Verdict};
use second::naive::judge::{check, line_of, Answer};
use second::naive::plain::plain;
use second::naive::read::read;
use second::view::assemble::assemble;

/// What both answer to the words behind `63:n`.
fn line(words: &str) -> String {
    let bytes = assemble(&format!("63:* {words}")).expect("a file");
    let line = check(&bytes).line();
    assert_eq!(line_of(fast::check(&bytes, &mut fast::Work::new())), line, "{words}");
    line
}

/// What the words of this page stand for; c, d and B are comparisons.
const WORDS: [(&str, &str); 8] = [
    ("and", "10:0"),
    ("or", "11:0"),
    ("not", "12:0"),
    ("true", "9:1"),
    ("false", "9:0"),
    ("c", "8:1 2:0 1:3"),
    ("d", "8:0 2:1 2:2"),
    ("B", "8:0 2:5 2:6"),
];

/// The words with φ and ψ put in.
fn with(words: &str, phi: &str, psi: &str) -> String {
    let all = words.replace('φ', phi).replace('ψ', psi);
    WORDS.iter().fold(all, |all, (name, word)| all.replace(name, word))
}

/// Refusal 8 at the first word of the rule.
fn refused_at(rule: &str, words: &str) -> String {
    let place = words.split_whitespace().position(|word| word == rule).expect("the rule's word");
    format!("refused 8 {}", place + 1)
}

/// Each rule that compares antecedents or assertions, and a file in which it compares φ with ψ. Children compare ψ with ψ.
const RULES: [(&str, &str); 22] = [
    ("33:1", "24:0 32:1 φ 2:9 32:1 ψ 2:9 33:1"),
    ("33:3", "27:7 2:8 32:1 φ 2:9 32:1 ψ 2:9 33:3"),
    ("33:4", "28:3 17:0 32:1 φ 2:9 32:1 ψ 2:9 33:4"),
    ("33:5", "26:0 B 32:1 and φ B 2:9 32:1 ψ 2:9 33:5"),
    (
        "33:6",
        "29:0 B 24:0 24:0 32:3 and φ B 2:9 and φ not B 2:9 true B 32:1 ψ 2:9 33:6 32:1 ψ 2:9 32:1 ψ 2:9 true 33:1 33:1 35:29",
    ),
    ("33:9", "24:0 32:2 φ 2:9 φ 2:8 32:2 ψ 2:9 ψ 2:8 33:9 32:1 ψ 2:9 32:1 ψ 2:9 32:1 ψ 2:8 32:1 ψ 2:8 33:1 33:1"),
    ("33:10", "24:0 32:1 φ 2:9 32:1 ψ 2:9 33:10"),
    ("33:12", "24:0 32:1 and φ B 2:9 32:1 and ψ B 2:9 33:12 32:1 ψ 2:9 32:1 ψ 2:9 B B 33:1 35:22"),
    ("33:13", "30:0 B 24:0 32:2 true B φ 2:9 32:2 true B ψ 2:9 33:13 33:1"),
    ("33:31", "62:1 24:0 32:1 ψ 2:9 32:1 ψ 2:9 33:1 38:0 32:1 φ 2:9 32:1 ψ 2:9 33:31"),
    ("33:31", "62:1 24:0 32:1 ψ 2:9 32:1 ψ 2:9 33:1 38:0 32:1 ψ 2:9 32:1 φ 2:9 33:31"),
    ("34:13", "24:0 32:1 φ 2:9 32:1 ψ 2:9 33:7 32:1 ψ 2:9 34:13 33:1"),
    (
        "34:16",
        "24:0 32:2 φ 2:9 φ 2:8 32:2 ψ 2:9 ψ 2:8 33:7 32:2 ψ 2:9 ψ 2:8 \
         34:16 32:1 ψ 2:9 32:1 ψ 2:9 32:1 ψ 2:8 32:1 ψ 2:8 34:13 34:13 33:1",
    ),
    ("34:17", "24:0 32:1 φ 2:9 32:1 ψ 2:9 33:7 32:1 ψ 2:9 34:17 32:1 ψ 2:9 32:1 ψ 2:9 32:1 ψ 2:9 34:13 34:13 33:1"),
    ("34:19", "24:0 32:2 φ 2:9 φ 2:8 32:1 ψ 3:0 2:9 2:8 33:7 32:1 ψ 3:0 2:9 2:8 34:19 33:1"),
    ("35:20", "29:0 B 24:0 24:0 32:1 or and φ B and φ not B 2:9 32:1 ψ 2:9 33:11 35:20 ψ ψ 35:22 35:22"),
    ("35:22", "24:0 32:1 φ 2:9 32:1 ψ 2:9 33:11 35:22"),
    ("35:24", "27:7 2:8 32:1 φ 2:9 32:1 ψ 2:9 33:11 35:24"),
    ("35:25", "28:3 17:0 32:1 φ 2:9 32:1 ψ 2:9 33:11 35:25"),
    ("35:26", "26:0 B 32:1 and φ B 2:9 32:1 ψ 2:9 33:11 35:26"),
    ("35:27", "27:7 2:8 32:1 φ 2:9 32:1 ψ 2:9 33:11 35:27"),
    ("35:22", "62:1 24:0 32:0 32:0 33:1 38:0 32:1 φ 2:9 32:1 ψ 2:9 33:11 35:32 35:22"),
];

/// "Every "true and" and "and true" is dropped at each depth until none is left": what differs by that alone.
const EQUAL: [(&str, &str); 20] = [
    ("and true c", "c"),
    ("and c true", "c"),
    ("and true and c true", "c"),
    ("and and true c true", "c"),
    ("and true c", "and c true"),
    ("and and true true c", "c"),
    ("and c and true and true true", "c"),
    ("and true true", "true"),
    ("and and true true and true true", "true"),
    ("and true false", "false"),
    ("and false true", "false"),
    ("not and true c", "not c"),
    ("not and true true", "not true"),
    ("not not and c true", "not not c"),
    ("or and true c d", "or c d"),
    ("or c and d true", "or c d"),
    ("and and true c d", "and c d"),
    ("and c and d true", "and c d"),
    ("and and c true and true d", "and c d"),
    ("or not and c true and true or and true true d", "or not c or true d"),
];

/// What is no such thing.
const OTHERS: [(&str, &str); 20] = [
    ("or true c", "c"),
    ("or true c", "true"),
    ("or c true", "true"),
    ("or c false", "c"),
    ("or false c", "c"),
    ("and false c", "false"),
    ("and c false", "false"),
    ("and not false c", "c"),
    ("not false", "true"),
    ("not not c", "c"),
    ("not not true", "true"),
    ("and c c", "c"),
    ("or c c", "c"),
    ("and c d", "and d c"),
    ("or c d", "or d c"),
    ("and and c d c", "and c and d c"),
    ("and or true true c", "c"),
    ("and c not c", "false"),
    ("and true c", "d"),
    ("not and c d", "or not c not d"),
];

/// "Before two antecedents, or two assertions in rules 20 to 30, are compared"; "every rule that compares sets takes this over".
#[test]
fn every_rule_that_compares() {
    for (rule, words) in RULES {
        for (phi, psi) in EQUAL {
            for words in [with(words, phi, psi), with(words, psi, phi)] {
                assert!(line(&words).starts_with("accepted "), "rule {rule}, {phi} and {psi}: {}", line(&words));
            }
        }
        for (phi, psi) in OTHERS {
            for words in [with(words, phi, psi), with(words, psi, phi)] {
                assert_eq!(line(&words), refused_at(rule, &words), "rule {rule}, {phi} and {psi}");
            }
        }
    }
}

/// Each of the files has its answer.
fn answers(files: &[(&str, &str)]) {
    for (words, wanted) in files {
        assert_eq!(line(&with(words, "", "")), *wanted, "{words}");
    }
}

/// Each of the files is refused at the first word of the rule.
fn refusals(files: &[(&str, &str)]) {
    for (rule, words) in files {
        let words = with(words, "", "");
        assert_eq!(line(&words), refused_at(rule, &words), "{words}");
    }
}

/// What a rule forms is plain before it is compared, too: a set under B, (φ1 ∧ B) ∨ (φ2 ∧ ¬B), φ' ∧ B.
#[test]
fn what_rules_form() {
    answers(&[
        ("26:0 B 32:1 B 2:9 32:1 true 2:9 33:5", "accepted 1"),
        ("26:0 true 32:1 c 2:9 32:1 c 2:9 33:5", "accepted 1"),
        ("26:0 and true B 32:1 and c B 2:9 32:1 c 2:9 33:5", "accepted 1"),
        (
            "29:0 B 24:0 24:0 32:3 B 2:9 not B 2:9 true B 32:1 true 2:9 \
             33:6 32:1 true 2:9 32:1 true 2:9 true 33:1 33:1 35:29",
            "accepted 4",
        ),
        ("24:0 32:1 c 2:9 32:1 c 2:9 33:12 32:1 true 2:9 32:1 true 2:9 c c 33:1 35:22", "accepted 3"),
        ("24:0 32:1 c 2:9 32:1 c 2:9 33:12 32:1 c 2:9 32:1 c 2:9 true true 33:1 35:29", "accepted 3"),
        ("29:0 B 24:0 24:0 32:1 or B not B 2:9 32:1 true 2:9 33:11 35:20 true true 35:22 35:22", "accepted 4"),
        ("29:0 true 24:0 24:0 32:1 or c and c not true 2:9 32:1 c 2:9 33:11 35:20 c c 35:22 35:22", "accepted 4"),
        ("29:0 and B true 24:0 24:0 32:1 or and c B and c not B 2:9 32:1 c 2:9 33:11 35:20 c c 35:22 35:22", "accepted 4"),
        ("26:0 B 32:1 B 2:9 32:1 true 2:9 33:11 35:26", "accepted 2"),
        ("26:0 true 32:1 c 2:9 32:1 c 2:9 33:11 35:26", "accepted 2"),
        ("26:0 and true true 32:1 true 2:9 32:1 true 2:9 33:11 35:26", "accepted 2"),
    ]);
    refusals(&[
        ("33:6", "29:0 B 24:0 24:0 32:2 B 2:9 true B 32:1 true 2:9 33:6 32:1 true 2:9 32:1 true 2:9 true 33:1 33:1 35:29"),
        ("35:20", "29:0 true 24:0 24:0 32:1 c 2:9 32:1 c 2:9 33:11 35:20 c c 35:22 35:22"),
        ("35:20", "29:0 B 24:0 24:0 32:1 true 2:9 32:1 true 2:9 33:11 35:20 true true 35:22 35:22"),
        ("35:20", "29:0 B 24:0 24:0 32:1 or not B B 2:9 32:1 true 2:9 33:11 35:20 true true 35:22 35:22"),
        ("35:26", "26:0 B 32:1 c 2:9 32:1 c 2:9 33:11 35:26"),
        ("35:26", "26:0 B 32:1 and B c 2:9 32:1 c 2:9 33:11 35:26"),
    ]);
}

/// The right side is put in, and that is compared plain: rules 3, 4, 24 and 25.
#[test]
fn right_sides() {
    answers(&[
        ("27:7 2:8 32:1 and true 8:1 2:8 1:3 2:8 32:1 8:1 2:7 1:3 2:7 33:3", "accepted 1"),
        ("27:7 2:8 32:1 not 8:1 2:8 1:3 2:8 32:1 not and 8:1 2:7 1:3 true 2:7 33:3", "accepted 1"),
        ("28:3 17:0 32:1 8:1 4:0 17:0 2:0 1:3 17:0 32:1 and 8:1 4:0 16:3 2:0 1:3 true 16:3 33:4", "accepted 1"),
        ("27:7 2:8 32:1 and true 8:1 2:8 1:3 2:9 32:1 8:1 2:7 1:3 2:9 33:11 35:24", "accepted 2"),
        ("27:7 2:8 32:1 not 8:1 2:8 1:3 2:9 32:1 not and 8:1 2:7 1:3 true 2:9 33:11 35:24", "accepted 2"),
        ("28:3 17:0 32:1 8:1 4:0 17:0 2:0 1:3 2:9 32:1 and 8:1 4:0 16:3 2:0 1:3 true 2:9 33:11 35:25", "accepted 2"),
    ]);
    refusals(&[
        ("33:3", "27:7 2:8 32:1 and true 8:1 2:7 1:3 2:8 32:1 and true 8:1 2:7 1:3 2:7 33:3"),
        ("33:3", "27:7 2:8 32:1 8:1 2:8 1:3 and true c 32:1 8:1 2:7 1:3 c 33:3"),
        ("35:24", "27:7 2:8 32:1 and true 8:1 2:7 1:3 2:9 32:1 and true 8:1 2:7 1:3 2:9 33:11 35:24"),
        ("35:25", "28:3 17:0 32:1 and true 8:1 4:0 16:3 2:0 1:3 2:9 32:1 8:1 4:0 16:3 2:0 1:3 2:9 33:11 35:25"),
    ]);
}

/// Rule 29's "φ is true", and flow rule 13's "true ⇒ B stands in P".
#[test]
fn what_is_true() {
    for phi in ["true", "and true true", "and and true true true", "and true and and true true true"] {
        assert_eq!(line(&with("24:0 32:1 φ 2:9 32:1 c 2:9 33:11 35:29", phi, "")), "accepted 2", "{phi}");
        assert_eq!(line(&with("30:0 B 24:0 32:1 φ B 32:1 φ B 33:13 33:1", phi, "")), "accepted 2", "{phi}");
    }
    for phi in ["false", "not false", "or true true", "and true c", "and true or true true", "and true false"] {
        for (rule, words) in
            [("35:29", "24:0 32:1 φ 2:9 32:1 c 2:9 33:11 35:29"), ("33:13", "30:0 B 24:0 32:1 φ B 32:1 φ B 33:13 33:1")]
        {
            let words = with(words, phi, "");
            assert_eq!(line(&words), refused_at(rule, &words), "{phi}");
        }
    }
}

/// Each rule that compares consequents, and a file in which it compares φ with ψ.
const CONSEQUENTS: [(&str, &str); 17] = [
    ("33:1", "24:0 32:1 true φ 32:1 true ψ 33:1"),
    ("33:3", "27:7 2:8 32:1 true φ 32:1 true ψ 33:3"),
    ("33:4", "28:3 17:0 32:1 true φ 32:1 true ψ 33:4"),
    ("33:5", "26:0 B 32:1 B φ 32:1 true ψ 33:5"),
    ("33:6", "29:0 B 24:0 24:0 32:3 B φ not B φ true B 32:1 true ψ 33:6 32:1 true ψ 32:1 true ψ true 33:1 33:1 35:29"),
    ("33:6", "29:0 ψ 24:0 24:0 32:3 ψ 2:9 not ψ 2:9 true φ 32:1 true 2:9 33:6 32:1 true 2:9 32:1 true 2:9 true 33:1 33:1 35:29"),
    ("33:9", "24:0 32:1 true φ 32:1 true ψ 33:9 32:1 true ψ 32:1 true ψ 32:0 32:0 33:1 33:1"),
    ("33:10", "24:0 32:1 true φ 32:1 true ψ 33:10"),
    ("33:11", "24:0 32:1 true φ 32:1 true ψ 33:11 35:22"),
    ("33:12", "24:0 32:1 c φ 32:1 c ψ 33:12 32:1 true ψ 32:1 true ψ c c 33:1 35:22"),
    ("33:13", "30:0 ψ 24:0 32:1 true φ 32:1 true φ 33:13 33:1"),
    ("33:31", "62:1 24:0 32:1 true ψ 32:1 true ψ 33:1 38:0 32:1 true φ 32:1 true ψ 33:31"),
    ("34:13", "24:0 32:1 true φ 32:1 true ψ 33:7 32:1 true ψ 34:13 33:1"),
    ("34:16", "24:0 32:1 true φ 32:1 true ψ 33:7 32:1 true ψ 34:16 32:1 true ψ 32:1 true ψ 32:0 32:0 34:13 34:13 33:1"),
    ("34:17", "24:0 32:1 true φ 32:1 true ψ 33:7 32:1 true ψ 34:17 32:1 true ψ 32:1 true ψ 32:1 true ψ 34:13 34:13 33:1"),
    ("34:18", "24:0 32:1 true φ 32:1 true ψ 33:7 32:1 true ψ 34:18 33:1"),
    ("34:19", "24:0 32:1 true φ 32:1 true not ψ 33:7 32:1 true not ψ 34:19 33:1"),
];

/// "Consequents are still compared by words."
#[test]
fn consequents() {
    for (rule, words) in CONSEQUENTS {
        for (phi, psi) in EQUAL {
            let words = [with(words, phi, psi), with(words, psi, phi), with(words, phi, phi)];
            assert_eq!(line(&words[0]), refused_at(rule, &words[0]), "rule {rule}, {phi} and {psi}");
            assert_eq!(line(&words[1]), refused_at(rule, &words[1]), "rule {rule}, {psi} and {phi}");
            assert!(line(&words[2]).starts_with("accepted "), "rule {rule}, {phi}: {}", line(&words[2]));
        }
    }
}

/// Commands in rules 14 and 30 are compared by words.
#[test]
fn commands() {
    const D: &str = "25:0 27:0 1:1 30:0 8:2 2:0 2:1 25:0 26:0 ψ 27:0 3:0 2:0 1:1";
    const OTHER: &str = "25:0 27:0 1:1 30:0 and true 8:2 2:0 2:1 25:0 26:0 φ 27:0 3:0 2:0 1:1";
    let rules = [("33:14", "33:14 D 33:10", "accepted 2"), ("35:30", "33:11 35:30 D 35:27", "accepted 3")];
    for (rule, evidence, accepted) in rules {
        let file = format!("31:32 26:0 φ 32:1 true 2:9 32:1 true 2:9 {evidence}");
        for (phi, psi) in EQUAL {
            let words = with(&file.replace('D', D), phi, psi);
            assert_eq!(line(&words), refused_at(rule, &words), "{phi} and {psi}");
            assert_eq!(line(&with(&file.replace('D', D), phi, phi)), accepted);
        }
        let words = with(&file.replace('D', OTHER), "c", "");
        assert_eq!(line(&words), refused_at(rule, &words));
    }
}

/// "Rule 17's "without" stays by words, so that no file accepted before is refused."
#[test]
fn without() {
    answers(&[
        // S' is taken from T, by words
        ("24:0 32:0 32:1 c 1:5 33:7 32:1 c 1:5 34:17 32:0 32:1 c 1:5 32:1 c 1:5 34:15 34:13 33:1", "accepted 5"),
        // of T's members that differ by true alone, the other one stays, and P has it however it is written
        (
            "24:0 32:1 and c true 1:5 32:1 c 1:5 33:7 32:1 c 1:5 34:17 32:0 32:1 c 1:5 32:2 c 1:5 and true c 1:5 34:15 34:13 33:1",
            "accepted 5",
        ),
        (
            "24:0 32:1 c 1:5 32:1 c 1:5 33:7 32:1 c 1:5 34:17 32:0 32:1 c 1:5 32:2 c 1:5 and true c 1:5 34:15 34:13 33:1",
            "accepted 5",
        ),
        // what words do not take from T stays, and P has it
        ("24:0 32:1 c 1:5 32:1 c 1:5 33:7 32:1 c 1:5 34:17 32:0 32:1 c 1:5 32:1 and true c 1:5 34:15 34:13 33:1", "accepted 5"),
    ]);
    refusals(&[
        ("34:17", "24:0 32:0 32:1 c 1:5 33:7 32:1 c 1:5 34:17 32:0 32:1 c 1:5 32:1 and true c 1:5 34:15 34:13 33:1"),
        ("34:17", "24:0 32:0 32:1 c 1:5 33:7 32:1 c 1:5 34:17 32:0 32:1 and c true 1:5 32:1 c 1:5 34:15 34:13 33:1"),
        ("34:17", "24:0 32:0 32:1 c 1:5 33:7 32:1 c 1:5 34:17 32:0 32:1 c 1:5 32:2 c 1:5 and true c 1:5 34:15 34:13 33:1"),
    ]);
}

/// One member is one written member, and comparisons are counted as they are written.
#[test]
fn as_written() {
    refusals(&[
        ("33:11", "24:0 32:2 c 2:9 and true c 2:9 32:1 c 2:9 33:11 35:22"),
        ("33:6", "29:0 B 24:0 24:0 32:1 true B 32:2 c 2:9 and c true 2:9 33:6 32:0 32:0 true 33:1 33:1 35:29"),
        ("34:15", "24:0 32:0 32:2 c 1:5 and true c 1:5 33:7 32:2 c 1:5 and true c 1:5 34:15 33:1"),
        ("34:18", "24:0 32:2 c 2:9 and true c 2:9 32:1 c 2:9 33:7 32:1 c 2:9 34:18 33:1"),
        ("34:19", "24:0 32:1 c d 32:2 c not d and true c not d 33:7 32:2 c not d and true c not d 34:19 33:1"),
    ]);
    answers(&[("24:0 32:2 c 2:9 and true c 2:9 32:1 c 2:9 33:1", "accepted 1")]);
    for (comparisons, wanted) in [(10, "accepted"), (11, "refused 9")] {
        let all: String = (0..comparisons).map(|i| format!("and and true 8:0 2:0 1:{i} ")).collect();
        let words = with("24:0 32:1 true 2:9 32:1 φ 2:9 33:7 32:1 φ 2:9 34:18 33:1", &format!("{all} true"), "");
        assert!(line(&words).starts_with(wanted), "{}", line(&words));
    }
}

/// Chains as deep as may be, nested to the left and to the right.
#[test]
fn chains() {
    for (one, last) in [("and true ", ""), ("and ", "true ")] {
        for (levels, wanted) in [(1, "accepted 1"), (60, "accepted 1"), (125, "accepted 1"), (126, "refused 4")] {
            let chain = format!("{}c {}", one.repeat(levels), last.repeat(levels));
            let words = with("24:0 32:1 φ 2:9 32:1 c 2:9 33:1", &chain, "");
            assert!(line(&words).starts_with(wanted), "{levels}: {}", line(&words));
        }
    }
}

/// Whether a "true and" or an "and true" is left.
fn has_true(b: &Bool) -> bool {
    match b {
        Bool::Truth(_) | Bool::Compare(..) => false,
        Bool::Not(a) => has_true(a),
        Bool::Or(a, b) => has_true(a) || has_true(b),
        Bool::And(a, b) => **a == always() || **b == always() || has_true(a) || has_true(b),
    }
}

/// A plain form has none left, is its own plain form, is that of the boolean with more put in, and means the same.
#[test]
fn plain_forms() {
    for i in 0..2_000 {
        let mut rng = file_prng(17, i);
        let pool = Pool::new(&mut rng);
        let b = boolean(&mut rng, &pool, 3);
        let form = plain(&b);
        assert!(!has_true(&form), "{b:?}");
        assert_eq!(plain(&form), form);
        assert_eq!(plain(&with_true(&mut rng, &b)), form);
        for (left, right) in [(&b, &form), (&form, &b)] {
            assert_ne!(implies(left, right, STANDARD), Verdict::Fails, "{b:?}");
        }
    }
}

/// How many of so many generated files are accepted.
fn accepted_of(files: u64, make: impl Fn(&mut Prng) -> Vec<u8>) -> u64 {
    (0..files).filter(|i| matches!(check(&make(&mut file_prng(18, *i))), Answer::Accepted(_))).count() as u64
}

/// True put in and taken out changes no answer where antecedents and assertions are compared; elsewhere it often does.
#[test]
fn generated_files() {
    let changed_in = |stands: Stands, files| accepted_of(files, |rng| changed(rng, &[stands]));
    assert!(changed_in(Stands::Antecedent, 200) >= 195, "but for depth");
    let [consequents, without, tests] = [Stands::Consequent, Stands::Without, Stands::Test].map(|stands| changed_in(stands, 200));
    println!("accepted of 200: consequents {consequents}, without {without}, tests {tests}");
    assert!((1..100).contains(&consequents) && (20..180).contains(&without) && (20..180).contains(&tests));
    assert_eq!(changed_in(Stands::Carried, 40), 0);
    assert!(accepted_of(200, not_dropped) < 40);
}

/// "An accepted file still gives agreeing ends."
#[test]
fn no_counterexample_in_tidied_files() {
    for i in 0..300 {
        let mut rng = file_prng(19, i);
        let bytes = tidied(&mut rng);
        let file = read(&bytes, STANDARD).expect("readable");
        for _ in 0..10 {
            assert_ne!(try_pair(&mut rng, &file, 400).0, Found::Counterexample, "file {i}");
        }
    }
}
