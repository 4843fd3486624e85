//! Request [3], sentence by sentence: each file with its answer by the second implementation and by the fast one.

use second::benchmark::worst::KINDS;
use second::fast;
use second::layout::settings::STANDARD;
use second::layout::words::{bytes_of, pack};
use second::naive::judge::{self, check, line_of, postcondition, precondition};
use second::naive::run::{run, ARRAY_VALUES, SCALARS};
use std::time::Instant;

/// Words `kind:payload` behind the word that counts them.
fn file(text: &str) -> Vec<u8> {
    let word = |text: &str| {
        let (kind, payload) = text.split_once(':').expect("kind:payload");
        pack(kind.parse().expect("a kind"), payload.parse().expect("a payload"))
    };
    let mut words: Vec<u32> = vec![0];
    words.extend(text.split_whitespace().map(word));
    words[0] = pack(63, words.len() as u32);
    bytes_of(&words)
}

fn answers(rows: &[(&str, &str)]) {
    let mut work = Box::new(fast::Work::new());
    for (text, line) in rows {
        let bytes = file(text);
        assert_eq!(check(&bytes).line(), *line, "{text}");
        assert_eq!(line_of(fast::check(&bytes, &mut work)), *line, "{text}, the fast version");
    }
}

/// "After word 0 a file may hold 62:k, k from 1 to 16, and k times a command, a precondition, a postcondition and flow
/// evidence, all outermost."
#[test]
fn tables() {
    let procedure = "24:0 32:0 32:0 33:1 ";
    for (count, line) in [(1, "accepted 2"), (16, "accepted 17"), (17, "refused 5 1")] {
        answers(&[(&format!("62:{count} {}", procedure.repeat(count + 1)), line)]);
    }
    answers(&[
        (&format!("62:0 {procedure}"), "refused 5 1"),
        (&format!("62:1 {procedure}"), "refused 3 6"),
        (&format!("62:1 {}", procedure.repeat(3)), "refused 6 10"),
        (&format!("62:1 62:1 {}", procedure.repeat(2)), "refused 5 2"),
        (&format!("{procedure} 62:1 {procedure}"), "refused 6 5"),
        (&format!("62:1 {procedure} 62:1 {procedure}"), "refused 5 6"),
        ("62:1", "refused 3 2"),
        ("25:0 24:0 62:1 32:0 32:0 33:10", "refused 5 3"),
        ("24:0 62:1 32:0 33:1", "refused 5 2"),
        ("24:0 32:0 32:0 62:1", "refused 5 4"),
    ]);
}

/// "All outermost": a body, its sets and its evidence have depth 1.
#[test]
fn depths() {
    let body = |levels: usize| "30:0 9:0 ".repeat(levels - 1) + "24:0 ";
    for (levels, line) in [(128, "accepted 2"), (129, "refused 4 257")] {
        answers(&[(&format!("62:1 {} 32:0 32:0 33:10 24:0 32:0 32:0 33:1", body(levels)), line)]);
    }
}

/// "16: a call to a number not below its own procedure's, or not in the table; after 6 and before 7, at the first such call."
#[test]
fn calls_that_may_not_be() {
    let skip = "24:0 32:0 32:0 33:10 ";
    answers(&[
        ("38:0 32:0 32:0 33:10", "refused 16 1"),
        ("38:67108863 32:0 32:0 33:10", "refused 16 1"),
        (&format!("62:1 38:0 32:0 32:0 33:10 {skip}"), "refused 16 2"),
        (&format!("62:2 {skip} 38:1 32:0 32:0 33:10 {skip}"), "refused 16 6"),
        (&format!("62:2 38:1 32:0 32:0 33:10 {skip} {skip}"), "refused 16 2"),
        (&format!("62:2 {skip} 38:0 32:0 32:0 33:10 38:1 32:0 32:0 33:10"), "accepted 3"),
        (&format!("62:1 {skip} 38:1 32:0 32:0 33:10"), "refused 16 6"),
        // the first of two, and what goes before and after
        (&format!("62:1 25:0 38:0 38:5 32:0 32:0 33:10 38:7 32:0 32:0 33:10"), "refused 16 3"),
        (&format!("62:1 31:0 24:0 32:0 32:0 33:10 38:7 32:0 32:0 33:10"), "refused 16 7"),
        (&format!("62:1 38:0 32:0 32:0 33:10 {skip} 24:0"), "refused 6 10"),
        (&format!("62:1 38:0 32:0 32:0 33:10 24:0 32:0 32:65"), "refused 5 8"),
        (&format!("62:1 38:0 32:0 32:0 33:10 24:0 32:0 32:0"), "refused 3 9"),
        // in the evidence of a procedure its own number counts, in that of the main program the table
        ("62:1 24:0 32:0 32:0 33:14 38:0 33:10 24:0 32:0 32:0 33:10", "refused 16 6"),
        ("62:1 24:0 32:0 32:0 33:10 24:0 32:0 32:0 33:14 38:0 33:10", "refused 8 9"),
        ("62:1 24:0 32:0 32:0 33:10 24:0 32:0 32:0 33:14 38:1 33:10", "refused 16 10"),
        ("62:1 24:0 32:0 32:0 33:10 24:0 32:1 9:1 2:0 32:1 9:1 2:0 33:11 35:30 38:1 35:29", "refused 16 15"),
    ]);
}

const COPY: &str = "27:0 2:1 32:1 9:1 2:1 32:1 9:1 2:0 33:3 ";

/// "Flow rule 31: C calls p, P is the same as its precondition, Q as its postcondition."
#[test]
fn rule_31() {
    answers(&[
        (&format!("62:1 {COPY} 38:0 32:1 9:1 2:1 32:1 9:1 2:0 33:31"), "accepted 2"),
        (&format!("62:1 {COPY} 38:0 32:2 9:1 2:1 9:1 2:1 32:1 9:1 2:0 33:31"), "accepted 2"),
        (&format!("62:1 {COPY} 38:0 32:0 32:1 9:1 2:0 33:31"), "refused 8 16"),
        (&format!("62:1 {COPY} 38:0 32:1 9:1 2:1 32:0 33:31"), "refused 8 16"),
        (&format!("62:1 {COPY} 38:0 32:2 9:1 2:1 9:1 2:2 32:1 9:1 2:0 33:31"), "refused 8 20"),
        (&format!("62:1 {COPY} {}", COPY.replace("33:3", "33:31")), "refused 8 19"),
        (&format!("62:1 {COPY} 38:0 32:1 9:1 2:1 32:1 9:1 2:0 33:3"), "refused 8 18"),
        // the evidence of a procedure counts whether it is called or not, and first
        (&format!("62:1 {} 24:0 32:0 32:0 33:3", COPY.replace("33:3", "33:4")), "refused 8 10"),
        (&format!("62:1 {COPY} 24:0 32:0 32:0 33:3"), "refused 8 14"),
    ]);
}

/// "Precondition rule 32: the one child is (φ, body, φ')."
#[test]
fn rule_32() {
    let member = |x: u32| format!("32:1 8:0 2:{x} 1:0 2:5 ");
    let main = |before: u32, evidence: &str| {
        format!("62:1 {COPY} 38:0 {} {} 33:11 {evidence}", member(before), member(0))
    };
    answers(&[
        (&main(1, "35:32 35:24"), "accepted 4"),
        (&main(0, "35:32 35:24"), "refused 8 24"),
        (&main(1, "35:24"), "refused 8 23"),
        (&main(1, "35:32"), "refused 3 24"),
        (&main(1, "35:32 33:1"), "refused 5 24"),
        (&main(0, "35:27"), "refused 8 23"),
        (&format!("24:0 {} {} 33:11 35:32 35:22", member(0), member(0)), "refused 8 13"),
    ]);
}

/// "A call modifies what its body modifies": refusal 7 and rules 10, 11 and 27, through any number of calls.
#[test]
fn modified() {
    let table = format!("62:2 {COPY} 38:0 32:0 32:0 33:10 ");
    let kept = |x: u32| format!("32:1 9:1 2:{x} ");
    answers(&[
        (&format!("{table} 38:1 {} {} 33:10", kept(0), kept(0)), "refused 8 22"),
        (&format!("{table} 38:1 {} {} 33:10", kept(1), kept(1)), "accepted 3"),
        (&format!("{table} 38:1 {} {} 33:11 35:29", kept(0), kept(0)), "refused 8 22"),
        (&format!("{table} 31:32 38:1 32:0 32:0 33:10"), "refused 7 15"),
        (&format!("{table} 31:1 38:1 32:0 32:0 33:10"), "refused 7 15"),
        (&format!("{table} 31:65 38:1 32:0 32:0 33:10"), "accepted 3"),
        // D is compared by words
        ("62:1 24:0 32:0 32:0 33:10 31:32 38:0 32:0 32:0 33:14 25:0 27:0 1:1 30:0 8:2 2:0 2:1 25:0 38:0 27:0 3:0 2:0 1:1 33:10", "accepted 3"),
        ("62:1 24:0 32:0 32:0 33:10 31:32 38:0 32:0 32:0 33:14 25:0 27:0 1:1 30:0 8:2 2:0 2:1 25:0 24:0 27:0 3:0 2:0 1:1 33:10", "refused 8 10"),
    ]);
}

/// The sets that are handed back are the main program's.
#[test]
fn parts() {
    let bytes = file(&format!("62:1 {COPY} 38:0 32:1 9:1 2:1 32:1 9:1 2:0 33:31"));
    assert_eq!(precondition(&bytes, STANDARD), &bytes[48..60]);
    assert_eq!(postcondition(&bytes, STANDARD), &bytes[60..72]);
}

/// End, steps and the first two scalars, from x1 = 7.
fn ran(text: &str, budget: u64) -> (String, u64, [i64; 2]) {
    let bytes = file(text);
    let (mut scalars, mut arrays) = (vec![0; SCALARS], vec![0; ARRAY_VALUES]);
    scalars[1] = 7;
    let (mut others, mut values) = (scalars.clone(), arrays.clone());
    let outcome = run(&bytes, budget, &mut scalars, &mut arrays, STANDARD);
    let packed = fast::run(&bytes, budget, &mut others, &mut values, fast::STANDARD, &mut fast::Work::new());
    assert_eq!((packed >> 32, others, values), (outcome.steps, scalars.clone(), arrays), "{text}");
    (outcome.end_text(), outcome.steps, [scalars[0], scalars[1]])
}

/// "Its body runs from the store at hand, and the call ends where the body ends"; it "is one step, before its body's".
#[test]
fn runs() {
    let twice = format!("62:1 {COPY} 25:0 38:0 25:0 27:1 1:9 38:0 32:0 32:0 33:10");
    assert_eq!(ran(&twice, 5), ("ended".to_string(), 5, [9, 9]));
    assert_eq!(ran(&twice, 4), ("refused 13 2".to_string(), 4, [7, 9]));
    assert_eq!(ran(&twice, 3), ("refused 13 16".to_string(), 3, [7, 9]));
    assert_eq!(ran(&twice, 1), ("refused 13 2".to_string(), 1, [0, 7]));
    assert_eq!(ran(&twice, 0), ("refused 13 12".to_string(), 0, [0, 7]));
    let fails = "62:1 26:0 9:0 32:0 32:0 33:10 38:0 32:0 32:0 33:10";
    assert_eq!(ran(fails, 9), ("refused 12 2".to_string(), 1, [0, 7]));
    assert_eq!(ran("38:0 32:0 32:0 33:10", 2_000_000).0, "refused 16 1");
    assert_eq!(ran(&twice, 2_000_000).0, "refused 10 0");
}

/// Sixteen procedures that each call the one below twice are 65,536 bodies; the check doesn't go through them.
#[test]
fn a_nest_is_checked_at_once() {
    let kind = KINDS.iter().find(|kind| kind.name == "calls").expect("a kind of files");
    let bytes = kind.file(8_192);
    let mut work = Box::new(fast::Work::new());
    let start = Instant::now();
    assert_eq!(fast::check(&bytes, &mut work), judge::check(&bytes).packed());
    assert!(start.elapsed().as_secs() < 5, "{:?}", start.elapsed());
}
