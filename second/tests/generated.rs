//! The generator against the judge, and the runner against the language.

use second::layout::settings::STANDARD;
use second::compare::pairs::{try_pair, Found};
use second::generate::limits::limit;
use second::generate::run_cases::run_case;
use second::generate::{accepted, count_rules, file_prng, mixed, RULES};
use second::naive::big::Big;
use second::naive::judge::{check, Answer};
use second::naive::read::read;
use second::naive::run::{run, End, INDEXES, SCALARS};
use second::naive::unbounded::{self, Map, NoEnd, Store};

#[test]
fn every_rule_occurs_in_accepted_files() {
    let mut counts = [[0u64; 33]; 3];
    for i in 0..1_000 {
        let bytes = accepted(&mut file_prng(11, i));
        assert!(matches!(check(&bytes), Answer::Accepted(_)));
        count_rules(&bytes, &mut counts);
    }
    for (counts, (name, rules)) in counts.iter().zip(RULES) {
        assert!(rules.iter().all(|rule| counts[*rule] >= 20), "{name}: {counts:?}");
    }
}

#[test]
fn limits_lie_on_both_sides() {
    let mut seen = [0u64; 17];
    for i in 0..4_000 {
        match check(&limit(&mut file_prng(12, i))) {
            Answer::Accepted(_) => seen[0] += 1,
            Answer::Refused(r) => seen[r.number as usize] += 1,
        }
    }
    for number in [0, 1, 2, 3, 4, 5, 6, 7, 8, 9, 16] {
        assert!(seen[number] >= 10, "{seen:?}");
    }
}

#[test]
fn a_seed_gives_the_same_files() {
    for i in 0..200 {
        assert_eq!(mixed(13, i).1, mixed(13, i).1);
    }
}

/// "If the runner ends, the definition ends alike from all arrays that hold
/// the lent values at 0 to 63." The steps agree too, and so do 12 and 13.
#[test]
fn the_runner_agrees_with_the_language() {
    let mut ends = [0u64; 17];
    for i in 0..2_000 {
        let mut rng = file_prng(14, i);
        let case = run_case(&mut rng);
        let mut store = case.store.clone();
        let (scalars, arrays) = store.split_at_mut(SCALARS);
        let outcome = run(&case.bytes, case.budget, scalars, arrays, STANDARD);
        let number = match outcome.end {
            End::Ended => 0,
            End::Refused(r) => r.number as usize,
        };
        ends[number] += 1;
        if ![0, 12, 13].contains(&number) || outcome.steps > 20_000 {
            continue;
        }
        let file = read(&case.bytes, STANDARD).expect("readable");
        let mut whole = Store {
            scalars: case.store[..SCALARS].iter().map(|v| Big::from(*v)).collect(),
            arrays: case.store[SCALARS..]
                .chunks(INDEXES)
                .map(|values| {
                    let mut map = Map::everywhere(Big::from(rng.below(9) as i64));
                    for (i, v) in values.iter().enumerate() {
                        map = map.with(Big::from(i as i64), Big::from(*v));
                    }
                    map
                })
                .collect(),
        };
        let mut left = case.budget;
        let end = unbounded::run(&file.command, &file.procedures, &mut whole, &mut left);
        match number {
            0 => assert_eq!(end, Ok(())),
            12 => assert_eq!(end, Err(NoEnd::AssertionFails)),
            _ => assert_eq!(end, Err(NoEnd::BoundReached)),
        }
        // A failed assert was counted by the one, not by the other.
        let finished = case.budget - left - u64::from(number == 12);
        assert_eq!(finished, outcome.steps, "case {i}");
        for (i, v) in store[..SCALARS].iter().enumerate() {
            assert_eq!(whole.scalars[i], Big::from(*v));
        }
        for (a, values) in store[SCALARS..].chunks(INDEXES).enumerate() {
            for (i, v) in values.iter().enumerate() {
                assert_eq!(whole.arrays[a].at(&Big::from(i as i64)), Big::from(*v));
            }
        }
    }
    for number in [0, 10, 12, 13, 14, 15] {
        assert!(ends[number] >= 20, "{ends:?}");
    }
}

#[test]
fn no_counterexample_in_accepted_files() {
    for i in 0..500 {
        let mut rng = file_prng(15, i);
        let bytes = accepted(&mut rng);
        let file = read(&bytes, STANDARD).expect("readable");
        for _ in 0..10 {
            assert_ne!(try_pair(&mut rng, &file, 400).0, Found::Counterexample, "file {i}");
        }
    }
}
