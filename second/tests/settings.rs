//! Request [6], sentence by sentence, by the second implementation and by the fast one.

use second::compare::raised::may_change;
use second::fast;
use second::generate::limits::beyond;
use second::generate::settings::{in_range, needs, outside, raised};
use second::generate::{file_prng, mixed};
use second::layout::settings::{Settings, HIGHEST, LOWEST, STANDARD};
use second::layout::words::{bytes_of, pack};
use second::naive::judge::{check, check_settings, line_of, packed_parts, postcondition, precondition, program};
use second::naive::read::read;
use second::naive::run::{ARRAY_VALUES, SCALARS};
use second::tool::calls::{Call, Given, Left, Version, FAST, NAIVE};

const VERSIONS: [Version; 2] = [NAIVE, FAST];

/// Words `kind:payload` behind the word that counts them.
fn file(text: &str) -> Vec<u8> {
    let word = |text: &str| {
        let (kind, payload) = text.split_once(':').expect("kind:payload");
        pack(kind.parse().expect("a kind"), payload.parse().expect("a payload"))
    };
    let mut words = vec![0];
    words.extend(text.split_whitespace().map(word));
    words[0] = pack(63, words.len() as u32);
    bytes_of(&words)
}

fn set(comparisons: u64, depth: u64, members: u64) -> Settings {
    Settings { comparisons, depth, members }
}

/// The line of both versions.
fn line(bytes: &[u8], settings: Settings) -> String {
    let [naive, fast] = VERSIONS.map(|version| (version.check)(bytes, settings).expect("linked"));
    assert_eq!(naive, fast, "{settings:?}");
    line_of(naive)
}

/// What a call leaves, the same of both versions.
fn left(given: &Given) -> Left {
    let [naive, fast] = VERSIONS.map(|version| version.call(given).expect("linked"));
    assert_eq!(naive, fast, "{}", given.text());
    naive
}

const SKIP: &str = "24:0 32:0 32:0 33:1";

/// Every call that reads a file, on this one.
fn calls(bytes: &[u8], settings: Settings) -> Vec<Given> {
    let put = Call::Put(1, bytes_of(&[pack(24, 0)]));
    let run = Call::Run(9, vec![7; SCALARS + ARRAY_VALUES]);
    let given = |call| Given { bytes: bytes.to_vec(), masks: vec![7; bytes.len() / 4], settings, call };
    [Call::Check, Call::Masks, put, run].map(given).into()
}

/// Settings of which just one is outside its range, and those at the ends.
fn outsides() -> Vec<Settings> {
    let one = [set(17, 128, 64), set(10, 0, 64), set(10, 257, 64), set(10, 128, 129)];
    let far = [0, 1, 2].map(|which| {
        let mut numbers = STANDARD.numbers();
        numbers[which] = u64::MAX;
        Settings::of(numbers)
    });
    let lost = [set(10 + (1 << 32), 128, 64), set(10, 128 + (1 << 32), 64), set(10, 128, 64 + (1 << 32))];
    let all = [set(u64::MAX, u64::MAX, u64::MAX), set(17, 0, 129)];
    [&one[..], &far, &lost, &all].concat()
}

/// "19: a setting outside its range, before 1, place 0": of each call, and nothing lent changes.
#[test]
fn outside_the_ranges() {
    for settings in outsides() {
        assert!(!settings.in_range());
        for bytes in [file(SKIP), Vec::new(), vec![0; 7], file("24:1")] {
            for given in calls(&bytes, settings) {
                let left = left(&given);
                assert_eq!(left.packed, 19 << 16, "{}", given.text());
                assert_eq!((&left.bytes, &left.masks), (&given.bytes, &given.masks));
                assert!(left.store.iter().all(|value| *value == 7) && left.beside_stayed);
            }
            assert_eq!(packed_parts(&bytes, settings), [0; 3]);
            let parts = [program(&bytes, settings), precondition(&bytes, settings), postcondition(&bytes, settings)];
            assert!(parts.iter().all(|part| part.is_empty()));
        }
    }
}

/// 19 goes before every other refusal, also those of the masks, the budget and the store.
#[test]
fn nineteen_is_first() {
    let bytes = file(SKIP);
    for settings in outsides() {
        for call in [Call::Masks, Call::Put(99, Vec::new()), Call::Run(1_000_001, vec![7; SCALARS])] {
            let given = Given { bytes: bytes.clone(), masks: Vec::new(), settings, call };
            assert_eq!(left(&given).packed, 19 << 16, "{}", given.text());
        }
    }
}

/// "The most comparisons (0 to 16), depth (1 to 256) and members (0 to 128)": the ends are in range.
#[test]
fn ends_of_the_ranges() {
    for settings in [LOWEST, HIGHEST, STANDARD, set(0, 256, 0), set(16, 1, 128)] {
        assert!(settings.in_range());
        for given in calls(&file(SKIP), settings) {
            assert!(left(&given).packed as u32 <= 1, "{}", given.text());
        }
        assert_eq!(line(&[], settings), "refused 1 0");
    }
}

/// One implication, by rule 18, over so many comparisons: all of them imply all of them, which holds, or not all of them, which fails.
fn implication(count: usize, holds: bool) -> Vec<u8> {
    let atom = |i: usize| format!("8:1 2:0 1:{i} ");
    let all: String = (0..count).map(|i| format!("10:0 {}", atom(i))).collect();
    let left = format!("{all} 9:1 ");
    let right = if holds { left.clone() } else { format!("12:0 {left}") };
    file(&format!("24:0 32:1 {right} 2:9 32:1 {left} 2:9 33:7 32:1 {left} 2:9 34:18 33:1"))
}

/// "Implies" over every count from 0 to 17, under every setting: 9 exactly where there are more.
#[test]
fn comparisons() {
    for count in 0..=17 {
        for (holds, judged) in [(true, "accepted 3"), (false, "refused 8 ")] {
            let bytes = implication(count, holds);
            assert_eq!(needs(&bytes).comparisons, count as u64);
            for most in 0..=16 {
                let due = if count as u64 > most { "refused 9 " } else { judged };
                let line = line(&bytes, Settings { comparisons: most, ..STANDARD });
                assert!(line.starts_with(due), "{count} comparisons, {most} at most: {line}");
            }
        }
    }
}

/// The row in which an implication fails is found wherever it is among the 65,536 of 16 comparisons.
#[test]
fn every_row_counts() {
    let atom = |i: u32, row: u32| format!("{}8:1 2:0 1:{i} ", if row >> i & 1 == 1 { "" } else { "12:0 " });
    for row in (0..16).map(|i| 1 << i).chain([0, 0xffff, 0x8001, 0x5555, 0xfbff, 0x7fff]) {
        // true in just that row, so that it implies false in every other
        let all: String = (0..16).map(|i| format!("10:0 {}", atom(i, row))).collect();
        let bytes = file(&format!("24:0 32:0 32:1 {all} 9:1 2:9 33:7 32:1 {all} 9:1 2:9 34:14 33:1"));
        assert!(line(&bytes, HIGHEST).starts_with("refused 8 "), "row {row:x}");
        let but = file(&format!("24:0 32:0 32:1 10:0 12:0 {all} 9:1 {all} 9:1 2:9 33:7 32:1 10:0 12:0 {all} 9:1 {all} 9:1 2:9 34:14 33:1"));
        assert_eq!(line(&but, HIGHEST), "accepted 3", "row {row:x}");
    }
}

/// Files of each depth, by commands, by an expression and by evidence: 4 exactly where the setting is less.
#[test]
fn depths() {
    for depth in [1, 2, 3, 127, 128, 129, 200, 255, 256, 257] {
        let nots = |levels: usize| format!("26:0 {}9:1 ", "12:0 ".repeat(levels - 2));
        let files = [
            format!("{}24:0 32:0 32:0 33:10", "30:0 9:0 ".repeat(depth - 1)),
            if depth < 2 { SKIP.to_string() } else { format!("{}32:0 32:0 33:10", nots(depth)) },
            format!("24:0 32:0 32:0 {}33:1", "33:7 32:0 34:13 ".repeat(depth - 1)),
        ];
        for bytes in files.map(|text| file(&text)) {
            assert_eq!(needs(&bytes).depth, depth as u64);
            for most in [1, 2, 3, 126, 127, 128, 129, 130, 199, 200, 254, 255, 256] {
                let line = line(&bytes, Settings { depth: most, ..STANDARD });
                assert_eq!(line.starts_with("refused 4 "), depth as u64 > most, "{depth} under {most}: {line}");
                assert_eq!(line.starts_with("accepted "), depth as u64 <= most, "{depth} under {most}: {line}");
            }
        }
    }
}

/// Sets of each size, in the contract and carried: 5 at the set exactly where the setting is less.
#[test]
fn members() {
    for count in [0, 1, 2, 63, 64, 65, 100, 127, 128, 129] {
        let set = format!("32:{count} {}", "9:1 2:0 ".repeat(count));
        let contract = file(&format!("24:0 {set} {set} 33:1"));
        let carried = file(&format!("24:0 32:1 9:1 2:0 32:1 9:1 2:0 33:7 {set} 34:13 33:10"));
        for (bytes, place) in [(&contract, 2), (&carried, 9)] {
            assert_eq!(needs(bytes).members, count.max(if place == 9 { 1 } else { 0 }) as u64);
            for most in [0, 1, 2, 62, 63, 64, 65, 99, 100, 126, 127, 128] {
                let line = line(bytes, Settings { members: most, ..STANDARD });
                let first = if place == 9 && most == 0 { 2 } else { place };
                let due = if count as u64 > most || first == 2 && place == 9 { format!("refused 5 {first}") } else { String::new() };
                assert!(line.starts_with(&due) && line.starts_with("refused 5") != due.is_empty(), "{count} under {most}: {line}");
            }
        }
    }
}

/// The new command of the workbench call is read under the settings too, where it stands.
#[test]
fn depth_of_a_put() {
    let wide = |words: usize| format!("26:0 {}{}9:1", "10:0 9:1 ".repeat(words / 2 - 1), if words % 2 == 1 { "12:0 " } else { "" });
    for (around, words, depth) in [(0, 9, 9), (3, 9, 12), (100, 100, 200), (120, 136, 256), (0, 128, 128)] {
        let text = format!("{}{} 32:0 32:0 33:10", "30:0 9:0 ".repeat(around), wide(words));
        let new = file(&format!("26:0 {}9:1", "12:0 ".repeat(words - 2)))[4..].to_vec();
        for most in [depth - 1, depth, (depth + 1).min(256)] {
            let settings = Settings { depth: most, ..STANDARD };
            let call = Call::Put(2 * around + 1, new.clone());
            let given = Given { bytes: file(&text), masks: vec![7; 999], settings, call };
            let due = if most < depth { 18 << 16 } else { 0 };
            assert_eq!(left(&given).packed, due, "{around} around, {words} words, under {most}");
        }
    }
}

/// "The old values give the old answers; only the C call and `flowcheck` take no settings and keep them."
#[test]
fn the_old_values() {
    let mut work = Box::new(fast::Work::new());
    for i in 0..1_500 {
        let bytes = mixed(31, i).1;
        assert_eq!(check(&bytes), check_settings(&bytes, STANDARD), "file {i}");
        assert_eq!(fast::check(&bytes, &mut work), fast::check_settings(&bytes, fast::STANDARD, &mut work), "file {i}");
        assert_eq!(line(&bytes, STANDARD), check(&bytes).line(), "file {i}");
    }
}

/// "Raising settings within these ranges never turns an acceptance into a refusal, and changes no refusal of a judged file but 4, 9 and
/// the 5 of a set's count."
#[test]
fn raised_settings() {
    // accepted, refused and stays, refused and changes
    let mut seen = [0; 3];
    for i in 0..3_000 {
        let mut rng = file_prng(32, i);
        let bytes = if i % 3 == 0 { beyond(&mut rng) } else { mixed(33, i).1 };
        let low = in_range(&mut rng, &bytes);
        let high = raised(&mut rng, low);
        assert!(low.in_range() && high.in_range() && low.is_within(high));
        for version in VERSIONS {
            let check = |bytes: &[u8], settings| (version.check)(bytes, settings).expect("linked");
            let (before, after) = (check(&bytes, low), check(&bytes, high));
            assert!(before == after || may_change(before, &bytes, low, check), "file {i}: {low:?} {high:?}");
            let which = if before < 65_536 { 0 } else { 1 + usize::from(before != after) };
            seen[which] += 1;
        }
    }
    assert!(seen.iter().all(|times| *times > 500), "{seen:?}");
}

/// A 5 at a word 32:m changes only where a set is due, and only under a setting of m members at least.
#[test]
fn fives() {
    let check = |bytes: &[u8], settings| (NAIVE.check)(bytes, settings).expect("linked");
    for (text, most, may, before, after) in [
        ("24:0 32:70 32:0 33:1", 128, true, "refused 5 2", "refused 5 3"),
        ("24:0 32:70 32:0 33:1", 70, true, "refused 5 2", "refused 5 3"),
        ("24:0 32:70 32:0 33:1", 69, true, "refused 5 2", "refused 5 2"),
        ("24:0 32:129 32:0 33:1", 128, true, "refused 5 2", "refused 5 2"),
        ("32:70 32:0 32:0 33:1", 128, false, "refused 5 1", "refused 5 1"),
        ("24:0 32:0 32:0 32:70", 128, false, "refused 5 4", "refused 5 4"),
    ] {
        let bytes = file(text);
        assert_eq!(may_change(check(&bytes, STANDARD), &bytes, STANDARD, check), may, "{text}");
        assert_eq!(line(&bytes, STANDARD), before, "{text}");
        assert_eq!(line(&bytes, Settings { members: most, ..STANDARD }), after, "{text}, {most} members");
    }
}

/// The generator: settings on both sides of what a file needs, and outside the ranges; files beyond each old limit.
#[test]
fn generated_settings() {
    let (mut equal, mut less, mut more) = ([0; 3], [0; 3], [0; 3]);
    for i in 0..2_000 {
        let mut rng = file_prng(34, i);
        let bytes = if i % 2 == 0 { beyond(&mut rng) } else { mixed(35, i).1 };
        let (needs, settings) = (needs(&bytes).numbers(), in_range(&mut rng, &bytes).numbers());
        for which in 0..3 {
            equal[which] += usize::from(settings[which] == needs[which]);
            less[which] += usize::from(settings[which] + 1 == needs[which]);
            more[which] += usize::from(settings[which] == needs[which] + 1);
        }
        assert!(!outside(&mut rng).in_range());
    }
    let enough = |counts: [usize; 3]| counts.iter().all(|count| *count >= 80);
    assert!(enough(equal) && enough(less) && enough(more), "{equal:?} {less:?} {more:?}");
}

/// What the files beyond the old limits try: each answer, by both sides of an implication and of every limit.
#[test]
fn files_beyond_the_old_limits() {
    let (mut old, mut new, mut most) = ([0; 20], [0; 20], LOWEST.numbers());
    for i in 0..2_000 {
        let bytes = beyond(&mut file_prng(36, i));
        let answer = (NAIVE.check)(&bytes, HIGHEST).expect("linked");
        old[check(&bytes).packed() as usize / 65_536] += 1;
        new[answer as usize / 65_536] += 1;
        if read(&bytes, HIGHEST).is_ok() {
            most = std::array::from_fn(|which| most[which].max(needs(&bytes).numbers()[which]));
        }
    }
    assert_eq!(most, [17, 256, 128]);
    assert!([0, 4, 5, 8, 9].iter().all(|number| new[*number] >= 20), "{new:?}");
    assert!(new[0] > 500 && new[8] > 100 && old[0] < 300, "{old:?} {new:?}");
}
