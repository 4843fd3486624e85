//! Document 01, "Table of files", and the limits that can be said in a line.

use second::layout::settings::STANDARD;
use second::layout::words::{bytes_of, constant_of, pack};
use second::naive::judge::{check, postcondition, precondition, program};
use second::naive::run::{run, ARRAY_VALUES, SCALARS};

fn file(words: &[(u32, u32)]) -> Vec<u8> {
    let words: Vec<u32> = words.iter().map(|(k, p)| pack(*k, *p)).collect();
    bytes_of(&words)
}

fn line(words: &[(u32, u32)]) -> String {
    check(&file(words)).line()
}

const SECOND: [(u32, u32); 10] =
    [(63, 10), (27, 0), (2, 1), (32, 1), (9, 1), (2, 1), (32, 1), (9, 1), (2, 0), (33, 3)];

#[test]
fn checks() {
    assert_eq!(line(&[(63, 5), (24, 0), (32, 0), (32, 0), (33, 1)]), "accepted 1");
    assert_eq!(line(&SECOND), "accepted 1");
    let mut other = SECOND;
    other[5] = (2, 2);
    assert_eq!(line(&other), "refused 8 9");
    assert_eq!(line(&[]), "refused 1 0");
    assert_eq!(line(&[(63, 4), (24, 0), (32, 0), (32, 0), (33, 1)]), "refused 2 0");
    assert_eq!(line(&[(63, 4), (24, 0), (32, 0), (32, 0)]), "refused 3 4");
    assert_eq!(line(&[(63, 6), (24, 0), (32, 0), (32, 0), (33, 1), (24, 0)]), "refused 6 5");
    assert_eq!(line(&[(63, 6), (31, 33), (24, 0), (32, 0), (32, 0), (33, 10)]), "refused 7 1");
    assert_eq!(constant_of(67_108_863), -1);
    assert_eq!(constant_of(33_554_432), -33_554_432);
}

#[test]
fn parts_of_the_bytes() {
    let bytes = file(&SECOND);
    assert_eq!(program(&bytes, STANDARD), &bytes[4..12]);
    assert_eq!(precondition(&bytes, STANDARD), &bytes[12..24]);
    assert_eq!(postcondition(&bytes, STANDARD), &bytes[24..36]);
    assert!(std::ptr::eq(precondition(&bytes, STANDARD).as_ptr(), bytes[12..].as_ptr()));
    let mut other = SECOND;
    other[5] = (2, 2);
    assert!(program(&file(&other), STANDARD).is_empty());
    assert!(precondition(&file(&other), STANDARD).is_empty());
    assert!(postcondition(&file(&other), STANDARD).is_empty());
}

/// `for` over skip, q scalar 0, m scalar 1: end, steps, q.
fn counted(m: i64, budget: u64) -> (String, u64, i64) {
    let bytes = file(&[(63, 6), (31, 32), (24, 0), (32, 0), (32, 0), (33, 10)]);
    let mut scalars = vec![0; SCALARS];
    let mut arrays = vec![0; ARRAY_VALUES];
    scalars[1] = m;
    let outcome = run(&bytes, budget, &mut scalars, &mut arrays, STANDARD);
    (outcome.end_text(), outcome.steps, scalars[0])
}

#[test]
fn runs() {
    assert_eq!(counted(3, 11), ("ended".to_string(), 11, 4));
    assert_eq!(counted(3, 10), ("refused 13 1".to_string(), 10, 4));
    assert_eq!(counted(-5, 2), ("ended".to_string(), 2, 1));
    assert_eq!(counted(-5, 1_000_000), ("ended".to_string(), 2, 1));
    assert_eq!(counted(-5, 1_000_001), ("refused 10 0".to_string(), 0, 0));
    assert_eq!(counted(i64::MAX, 1_000_000).0, "refused 13 1");
    assert_eq!(counted(i64::MAX, 1_000_000).1, 1_000_000);
    // 3 × n + 2 steps.
    assert_eq!(counted(333_332, 1_000_000).0, "ended");
    assert_eq!(counted(333_333, 1_000_000).0, "refused 13 1");
}

#[test]
fn lent_stores() {
    let bytes = file(&SECOND);
    for (scalars, arrays) in [(31, 2_048), (33, 2_048), (32, 2_047), (32, 2_049), (0, 0)] {
        let mut scalars = vec![7; scalars];
        let mut arrays = vec![7; arrays];
        let outcome = run(&bytes, 10, &mut scalars, &mut arrays, STANDARD);
        assert_eq!((outcome.end_text().as_str(), outcome.steps), ("refused 11 0", 0));
        assert!(scalars.iter().chain(&arrays).all(|v| *v == 7));
        let outcome = run(&bytes, 1_000_001, &mut scalars, &mut arrays, STANDARD);
        assert_eq!(outcome.end_text(), "refused 10 0");
        let outcome = run(&bytes[4..], 1_000_001, &mut scalars, &mut arrays, STANDARD);
        assert_eq!(outcome.end_text(), "refused 2 0");
    }
}
