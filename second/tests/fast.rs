//! The fast version against known answers, and the files of growing size.

use second::benchmark::highest;
use second::benchmark::worst::{deepest, without_assignments, KINDS};
use second::fast::{check, check_settings, check_with_masks, Work, STANDARD};
use second::layout::settings::{Settings, HIGHEST};
use second::naive::judge::{self, line_of, Answer};
use second::tool::calls::{compare_rows, FAST};
use std::path::Path;

fn tests() -> std::path::PathBuf {
    Path::new(env!("CARGO_MANIFEST_DIR")).join("../tests")
}

#[test]
fn rows() {
    let text = std::fs::read_to_string(tests().join("rows.tsv")).expect("the rows");
    let mut work = Box::new(Work::new());
    let mut agreed = 0;
    for row in text.lines().filter(|l| !l.starts_with('#')) {
        let fields: Vec<&str> = row.split('\t').collect();
        let bytes = second::tool::rows::bytes_of_hex(fields[2]).expect("hexadecimal");
        assert_eq!(line_of(check(&bytes, &mut work)), fields[1], "{}", fields[0]);
        agreed += 1;
    }
    assert!(agreed > 200);
}

#[test]
fn call_rows() {
    let text = std::fs::read_to_string(tests().join("calls.tsv")).expect("the rows");
    let (compared, differ) = compare_rows(&text, &FAST).expect("rows of calls");
    assert!(differ.is_empty(), "{}", differ.join("\n"));
    assert!(compared > 100);
}

#[test]
fn usual_and_worst_files() {
    let mut work = Box::new(Work::new());
    let mut agreed = 0;
    for folder in ["usual", "worst"] {
        let folder = tests().join(folder);
        for row in std::fs::read_to_string(folder.join("expected")).expect("expected").lines() {
            let fields: Vec<&str> = row.split('\t').collect();
            let bytes = std::fs::read(folder.join(fields[0])).expect("a file");
            assert_eq!(line_of(check(&bytes, &mut work)), fields[1], "{}", fields[0]);
            assert_eq!(judge::check(&bytes).line(), fields[1], "{}", fields[0]);
            let mut masks = vec![u64::MAX; bytes.len() / 4];
            assert_eq!(line_of(check_with_masks(&bytes, &mut masks, STANDARD, &mut work)), fields[1], "{}, with masks", fields[0]);
            agreed += 1;
        }
    }
    assert_eq!(agreed, 35);
}

/// What the benchmark of the check with masks compares: a file, and one as long that is accepted alike and modifies nothing.
#[test]
fn worst_files_without_assignments() {
    let mut work = Box::new(Work::new());
    for name in ["w09-modified.bin", "w10-halves.bin", "w11-modified-one.bin"] {
        let bytes = std::fs::read(tests().join("worst").join(name)).expect("a file");
        let other = without_assignments(&bytes);
        assert_eq!(other.len(), bytes.len(), "{name}");
        let answer = judge::check(&bytes);
        assert!(matches!(answer, Answer::Accepted(_)), "{name}: {}", answer.line());
        let modifies = [bytes, other].map(|bytes| {
            let mut masks = vec![u64::MAX; bytes.len() / 4];
            assert_eq!(check_with_masks(&bytes, &mut masks, STANDARD, &mut work), answer.packed(), "{name}");
            masks.iter().any(|mask| *mask != 0)
        });
        assert_eq!(modifies, [true, false], "{name}");
    }
}

#[test]
fn growing_files_are_accepted() {
    let mut work = Box::new(Work::new());
    for kind in KINDS {
        let mut last = 0;
        for words in [1_024, 2_048, 4_096, 8_192] {
            let bytes = kind.file(words);
            assert!(bytes.len() > last && bytes.len() <= 4 * words, "{} of {words}", kind.name);
            last = bytes.len();
            let answer = judge::check(&bytes);
            assert!(matches!(answer, Answer::Accepted(_)), "{}: {}", kind.name, answer.line());
            assert_eq!(check(&bytes, &mut work), answer.packed(), "{}", kind.name);
        }
        assert!(last > 4 * 7_000, "{}: {last} bytes at most", kind.name);
    }
}

/// What is dear under the highest settings: accepted there, and refused with 4, 5 or 9 under the old ones. The second implementation
/// tries smaller files of the same kinds.
#[test]
fn files_for_the_highest_settings() {
    let mut work = Box::new(Work::new());
    let under = |bytes: &[u8], settings: Settings, work: &mut Work| check_settings(bytes, settings.numbers().into(), work);
    for kind in highest::KINDS {
        let bytes = kind.file(8_192);
        assert!((4 * 7_600..=32_768).contains(&bytes.len()), "{}: {} bytes", kind.name, bytes.len());
        assert!(under(&bytes, HIGHEST, &mut work) < 65_536, "{}", kind.name);
        let old = judge::check(&bytes);
        assert!(matches!(old.packed() / 65_536, 4 | 5 | 9), "{}: {}", kind.name, old.line());
        let smaller = kind.file(1_024);
        assert_eq!(under(&smaller, HIGHEST, &mut work), judge::check_settings(&smaller, HIGHEST).packed(), "{}", kind.name);
    }
    for (i, bytes) in highest::deepest().iter().enumerate() {
        let answer = judge::check_settings(bytes, HIGHEST);
        assert!(matches!(answer, Answer::Accepted(248..)), "file {i}: {}", answer.line());
        assert_eq!(under(bytes, HIGHEST, &mut work), answer.packed(), "file {i}");
        assert_eq!(judge::check(bytes).packed() / 65_536, 4, "file {i}");
    }
}

/// What the benchmark compares: a file over 16 comparisons, and one as long over 10 that is accepted also under the old settings.
#[test]
fn files_over_ten_comparisons() {
    let mut work = Box::new(Work::new());
    for kind in highest::OVER_SIXTEEN {
        let bytes = kind.file(8_192);
        let ten = highest::over_ten(&bytes);
        assert_eq!(ten.len(), bytes.len(), "{}", kind.name);
        let accepted = check_settings(&bytes, HIGHEST.numbers().into(), &mut work);
        assert!(accepted < 65_536, "{}: {}", kind.name, line_of(accepted));
        assert_eq!(judge::check(&bytes).packed() / 65_536, 9, "{}", kind.name);
        assert_eq!(judge::check(&ten).packed(), accepted, "{}", kind.name);
        let nine = Settings { comparisons: 9, ..HIGHEST };
        assert_eq!(check_settings(&ten, nine.numbers().into(), &mut work) / 65_536, 9, "{}", kind.name);
    }
    for bytes in highest::failing() {
        let answer = judge::check_settings(&bytes, HIGHEST).packed();
        assert_eq!(answer / 65_536, 8);
        assert_eq!(judge::check(&highest::over_ten(&bytes)).packed(), answer);
    }
    let [first, last] = highest::failing().map(|bytes| bytes.len());
    assert_eq!(first, last);
}

#[test]
fn deepest_files_are_accepted() {
    let mut work = Box::new(Work::new());
    for (i, bytes) in deepest().iter().enumerate() {
        let answer = judge::check(bytes);
        assert!(matches!(answer, Answer::Accepted(120..)), "file {i}: {}", answer.line());
        assert_eq!(check(bytes, &mut work), answer.packed(), "file {i}");
    }
}
