//! Request [1], sentence by sentence: tests with what comes of them by the second implementation and by the fast one.

use second::fast;
use second::generate::file_prng;
use second::generate::procedures::without_contract;
use second::generate::run_cases::{run_case, RunCase};
use second::layout::settings::{Settings, STANDARD};
use second::layout::syntax::*;
use second::layout::words::bytes_of;
use second::layout::write::file_words_with;
use second::naive::read::read;
use second::naive::run::{run, End, ARRAY_VALUES, SCALARS};
use second::view::assemble::assemble;

/// The end, the steps and x1 of a run from x0 = 2^63 − 1 and x2 = 64.
fn ran(command: &str) -> (String, u64, i64) {
    let bytes = assemble(&format!("63:* {command} 32:0 32:0 33:10")).expect("a file");
    let (mut scalars, mut arrays) = (vec![0; SCALARS], vec![0; ARRAY_VALUES]);
    (scalars[0], scalars[2]) = (i64::MAX, 64);
    let (mut others, mut values) = (scalars.clone(), arrays.clone());
    let outcome = run(&bytes, 100, &mut scalars, &mut arrays, STANDARD);
    let packed = fast::run(&bytes, 100, &mut others, &mut values, fast::STANDARD, &mut fast::Work::new());
    let code = match outcome.end {
        End::Ended => 0,
        End::Refused(r) => u64::from(r.number) << 16 | r.place as u64,
    };
    assert_eq!((packed, others, values), (outcome.steps << 32 | code, scalars.clone(), arrays), "{command}");
    (outcome.end_text(), outcome.steps, scalars[1])
}

/// What comes of a test in an if, in a while and in an assert.
fn tested(b: &str, wanted: &str) {
    let outcomes = match wanted {
        "true" => [("ended", 2, 1), ("refused 13 1", 100, 0), ("ended", 1, 0)],
        "false" => [("ended", 2, 2), ("ended", 1, 0), ("refused 12 1", 0, 0)],
        refused => [(refused, 0, 0); 3],
    };
    let commands = [format!("29:0 {b} 27:1 1:1 27:1 1:2"), format!("30:0 {b} 24:0"), format!("26:0 {b}")];
    for (command, (end, steps, x1)) in commands.iter().zip(outcomes) {
        assert_eq!(ran(command), (end.to_string(), steps, x1), "{command}");
    }
}

/// a0[x2] = 0 and x0 + 1 < x1, which have no value in the runner.
const OUTSIDE: &str = "8:0 4:0 16:0 2:2 1:0";
const LARGE: &str = "8:1 3:0 2:0 1:1 2:1";

/// "A false left side of and, or a true left side of or, shall settle the test, and the right side is not worked out."
#[test]
fn sides() {
    tested(&format!("10:0 9:0 {OUTSIDE}"), "false");
    tested(&format!("10:0 9:0 {LARGE}"), "false");
    tested(&format!("11:0 9:1 {OUTSIDE}"), "true");
    tested(&format!("11:0 9:1 {LARGE}"), "true");
}

/// Else it is; and the left side always is.
#[test]
fn sides_that_are_worked_out() {
    tested(&format!("10:0 9:1 {OUTSIDE}"), "refused 15 1");
    tested(&format!("10:0 {LARGE} 9:0"), "refused 14 1");
    tested(&format!("11:0 9:0 {LARGE}"), "refused 14 1");
    tested(&format!("11:0 {OUTSIDE} 9:1"), "refused 15 1");
    tested(&format!("10:0 {OUTSIDE} {LARGE}"), "refused 15 1");
    tested(&format!("11:0 {LARGE} {OUTSIDE}"), "refused 14 1");
    for (join, left, right) in [(10, 1, 0), (10, 1, 1), (11, 0, 0), (11, 0, 1)] {
        tested(&format!("{join}:0 9:{left} 9:{right}"), if right == 1 { "true" } else { "false" });
    }
}

/// A side that settles its own test settles no other; under not it is the denied value that counts.
#[test]
fn sides_at_every_depth() {
    tested(&format!("10:0 10:0 9:0 {OUTSIDE} {LARGE}"), "false");
    tested(&format!("10:0 9:1 10:0 9:0 {OUTSIDE}"), "false");
    tested(&format!("11:0 10:0 9:0 {OUTSIDE} 9:1"), "true");
    tested(&format!("11:0 10:0 9:0 {OUTSIDE} {LARGE}"), "refused 14 1");
    tested(&format!("10:0 11:0 9:1 {OUTSIDE} 9:0"), "false");
    tested(&format!("10:0 11:0 9:1 {OUTSIDE} {LARGE}"), "refused 14 1");
    tested(&format!("12:0 10:0 9:0 {OUTSIDE}"), "true");
    tested(&format!("12:0 11:0 9:1 {LARGE}"), "false");
    tested(&format!("10:0 12:0 9:1 {OUTSIDE}"), "false");
    tested(&format!("10:0 12:0 9:0 {OUTSIDE}"), "refused 15 1");
    tested(&format!("11:0 12:0 9:0 {OUTSIDE}"), "true");
    for (join, value, wanted) in [(10, 0, "false"), (11, 1, "true")] {
        tested(&format!("{}9:{value} {}", format!("{join}:0 ").repeat(100), format!("{LARGE} ").repeat(100)), wanted);
        let other = 1 - value;
        tested(&format!("{}{join}:0 9:{value} {OUTSIDE}", format!("{join}:0 9:{other} ").repeat(100)), wanted);
    }
}

/// "A test that first checks an index range": x2 is 64, x1 is 0.
#[test]
fn ranges() {
    tested(&format!("10:0 8:2 1:0 2:2 10:0 8:2 2:2 1:63 {OUTSIDE}"), "false");
    tested(&format!("10:0 10:0 8:2 1:0 2:2 8:2 2:2 1:63 {OUTSIDE}"), "false");
    tested(&format!("11:0 8:1 2:2 1:0 11:0 8:1 1:63 2:2 {OUTSIDE}"), "true");
    tested(&format!("10:0 8:2 2:2 1:64 {OUTSIDE}"), "refused 15 1");
    tested("10:0 8:2 1:0 2:1 10:0 8:2 2:1 1:63 8:0 4:0 16:0 2:1 1:0", "true");
}

/// The same test with both sides always worked out, the left first: l ∧ false is false once l is worked out, and ∨ goes on.
fn with_both_sides(b: &Bool) -> Bool {
    let (by, left, right): (fn(Bool, Bool) -> Bool, _, _) = match b {
        Bool::And(left, right) => (and, left, right),
        Bool::Or(left, right) => (or, left, right),
        Bool::Not(inner) => return not(with_both_sides(inner)),
        _ => return b.clone(),
    };
    let (left, right) = (with_both_sides(left), with_both_sides(right));
    let worked_out = |side: &Bool, then| or(and(side.clone(), Bool::Truth(false)), then);
    worked_out(&left, worked_out(&right, by(left.clone(), right.clone())))
}

/// The same command with such tests.
fn command_with_both_sides(c: &Command) -> Command {
    let part = |c: &Command| Box::new(command_with_both_sides(c));
    command(match &c.form {
        Form::Sequence(first, second) => Form::Sequence(part(first), part(second)),
        Form::Assert(b) => Form::Assert(with_both_sides(b)),
        Form::If(b, then, otherwise) => Form::If(with_both_sides(b), part(then), part(otherwise)),
        Form::While(b, body) => Form::While(with_both_sides(b), part(body)),
        Form::For(q, m, body) => Form::For(*q, *m, part(body)),
        other => other.clone(),
    })
}

/// The refusal's number (0: the run ended), the steps and the store.
fn outcome(bytes: &[u8], case: &RunCase) -> (u32, u64, Vec<i64>) {
    let mut store = case.store.clone();
    let (scalars, arrays) = store.split_at_mut(SCALARS);
    let outcome = run(bytes, case.budget, scalars, arrays, STANDARD);
    let number = match outcome.end {
        End::Ended => 0,
        End::Refused(r) => r.number,
    };
    (number, outcome.steps, store)
}

/// "Where both sides have a value the runner's result is too"; and many generated runs have a side without one.
#[test]
fn the_order_tells_only_where_a_side_has_no_value() {
    let (mut runs, mut others) = (0, 0);
    for i in 0..4_000 {
        let case = run_case(&mut file_prng(16, i));
        // not those at the limit of depth: both sides double at each level
        let Ok(file) = read(&case.bytes, Settings { depth: 24, ..STANDARD }) else { continue };
        let bodies = file.procedures.iter().map(|p| without_contract(command_with_both_sides(&p.command)));
        let program = command_with_both_sides(&file.command);
        let words = file_words_with(&bodies.collect::<Vec<_>>(), &program, &[], &[], &flow_of(FlowRule::F10));
        let both = outcome(&bytes_of(&words), &case);
        let settled = outcome(&case.bytes, &case);
        runs += 1;
        if both != settled {
            assert!([14, 15].contains(&both.0), "run {i}: {} and {}", both.0, settled.0);
            others += 1;
        }
    }
    println!("{others} of {runs} runs have another answer with both sides worked out");
    assert!(20 * others > runs, "{others} of {runs}");
}
