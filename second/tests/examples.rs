//! `examples/`: texts, files and answers agree; the programs do what they should; the good contracts hold of runs, and
//! each faulty one is broken by two runs.

use second::compare::pairs::{try_pair, Found};
use second::examples::{self, guard::*};
use second::generate::{accepted, file_prng};
use second::layout::settings::STANDARD;
use second::layout::syntax::{Expression, File};
use second::naive::big::Big;
use second::naive::judge::check;
use second::naive::read::read;
use second::naive::run::{run, ARRAY_VALUES, INDEXES, SCALARS};
use second::naive::unbounded::{self, agree, Map, Store};
use second::tool::rows::{bytes_of_field, changes_of, store_of};
use second::view::annotate::annotate;
use second::view::assemble::assemble;
use second::view::show::Names;
use std::collections::BTreeSet;
use std::path::Path;

const FOLDER: &str = "../examples";

fn bytes(name: &str) -> Vec<u8> {
    std::fs::read(format!("{FOLDER}/{name}.cert")).expect("a file")
}

fn text(name: &str) -> String {
    std::fs::read_to_string(format!("{FOLDER}/{name}.txt")).expect("a text")
}

/// Names and lines of `expected.tsv`, with the files that its rows name.
fn expected() -> Vec<(String, String, Vec<u8>)> {
    let path = format!("{FOLDER}/expected.tsv");
    let rows = std::fs::read_to_string(&path).expect("the rows");
    let mut out = Vec::new();
    for row in rows.lines().filter(|row| !row.starts_with('#')) {
        let fields: Vec<&str> = row.split('\t').collect();
        let bytes = bytes_of_field(fields[2], Path::new(&path)).expect("the bytes");
        out.push((fields[0].to_string(), fields[1].to_string(), bytes));
    }
    out
}

#[test]
fn texts_files_and_answers_agree() {
    for (name, line, bytes) in expected() {
        assert_eq!(assemble(&text(&name)).as_ref(), Ok(&bytes), "{name}");
        assert_eq!(check(&bytes).line(), line, "{name}");
    }
}

/// Each text and file of the folder has its row.
#[test]
fn every_example_is_expected() {
    let mut wanted = BTreeSet::new();
    for (name, _, _) in expected() {
        wanted.insert(format!("{name}.txt"));
        wanted.insert(format!("{name}.cert"));
    }
    let mut found = BTreeSet::new();
    for entry in std::fs::read_dir(FOLDER).expect("the folder") {
        let name = entry.expect("an entry").file_name().into_string().expect("a name");
        if name.ends_with(".txt") || name.ends_with(".cert") {
            found.insert(name);
        }
    }
    assert_eq!(found, wanted);
}

#[test]
fn texts_and_files_are_as_their_trees_say() {
    for example in examples::all() {
        assert_eq!(text(example.name), example.text());
        assert_eq!(bytes(example.name), example.bytes());
    }
}

fn readme() -> String {
    std::fs::read_to_string(format!("{FOLDER}/README.md")).expect("README.md")
}

/// Some line of README.md has each example's name and answer.
#[test]
fn the_readme_has_every_answer() {
    for (name, line, _) in expected() {
        let has = |text: &str| text.contains(&format!("`{name}`")) && text.contains(&line);
        assert!(readme().lines().any(has), "{name}: {line}");
    }
}

/// The refused evidence word and no other is marked in a text of the guard.
#[test]
fn texts_mark_the_refused_word() {
    for (name, line, _) in expected() {
        let text = text(&name);
        let marked = text.lines().position(|line| line.contains("] REFUSED 8: "));
        let Some(place) = line.strip_prefix("refused 8 ") else {
            assert_eq!(marked, None, "{name}");
            continue;
        };
        let marked = text.lines().nth(marked.expect("a mark")).expect("a line");
        let number = marked.split('#').nth(1).expect("a comment").split_whitespace().next().expect("its number");
        assert!(text.contains(&format!("# {number} at word {place}: ")), "{name}: {marked}");
    }
}

/// `[1.2] at word 38` above an evidence word is its place.
#[test]
fn evidence_words_stand_where_the_texts_say() {
    for (name, line, _) in expected() {
        let (mut place, mut said, mut checked) = (0, None, 0);
        for line in text(&name).lines() {
            let (words, comment) = line.split_once('#').unwrap_or((line, ""));
            if let Some((_, at)) = comment.split_once("] at word ") {
                said = at.split(':').next().and_then(|n| n.parse::<usize>().ok());
            }
            for word in words.split_whitespace() {
                if ["33:", "34:", "35:"].iter().any(|kind| word.starts_with(kind)) {
                    assert_eq!(said.take(), Some(place), "{name}: {line}");
                    checked += 1;
                }
                place += 1;
            }
        }
        assert!(checked > 0 && (line.starts_with("refused") || line == format!("accepted {checked}")), "{name}");
    }
}

/// Text that can be followed by hand exists for every rule, and is the file.
#[test]
fn annotated_text_of_generated_files() {
    let names = Names { scalars: &["zero"], arrays: &["first", "second"] };
    for i in 0..300 {
        let bytes = accepted(&mut file_prng(31, i));
        let file = read(&bytes, STANDARD).expect("readable");
        let text = annotate(&file, &names).expect("each rule fits its command");
        assert_eq!(assemble(&text), Ok(bytes), "{text}");
    }
}

/// The end of a run of the file's program by the runner, from scalars that are 0 but for these.
fn end_of(name: &str, start: &[(u32, i64)]) -> Vec<i64> {
    let mut scalars = vec![0; SCALARS];
    for (x, value) in start {
        scalars[*x as usize] = *value;
    }
    let mut arrays = vec![0; ARRAY_VALUES];
    assert_eq!(run(&bytes(name), 100, &mut scalars, &mut arrays, STANDARD).end_text(), "ended");
    scalars
}

/// Figure 2, each way open or shut by its two flags: data passes or all stays.
#[test]
fn the_guard_does_what_the_figure_says() {
    let ways = [
        (IN_0_RDY, IN_0_DAT, OUT_1_RDY, OUT_1_DAT, D_0),
        (IN_1_RDY, IN_1_DAT, OUT_0_RDY, OUT_0_DAT, D_1),
    ];
    for flags in 0..16 {
        let ready = |way: usize| [i64::from(flags >> (2 * way) & 1), i64::from(flags >> (2 * way + 1) & 1)];
        let mut start = vec![(IN_0_DAT, 50), (IN_1_DAT, 51), (OUT_0_DAT, 60), (OUT_1_DAT, 61)];
        for (i, (in_rdy, _, out_rdy, _, _)) in ways.iter().enumerate() {
            start.extend([(*in_rdy, ready(i)[0]), (*out_rdy, ready(i)[1])]);
        }
        let end = end_of("guard-both", &start);
        let at = |x: u32| end[x as usize];
        for (i, (in_rdy, in_dat, out_rdy, out_dat, data)) in ways.into_iter().enumerate() {
            let lent = |x: u32| start.iter().find(|(y, _)| *y == x).map_or(0, |(_, value)| *value);
            let wanted = match ready(i) {
                [1, 0] => [0, 1, lent(in_dat), lent(in_dat)],
                [one, other] => [one, other, lent(out_dat), 0],
            };
            assert_eq!([at(in_rdy), at(out_rdy), at(out_dat), at(data)], wanted, "flags {flags}");
            assert_eq!(at(in_dat), lent(in_dat));
        }
    }
}

/// The example, the store that its program is run from, and what comes of it.
const RUNS: [(&str, &str, &str, &str); 18] = [
    ("guard-procedure", "0=1,1=5,4=1,5=6,2=1", "ended", "0=0,6=1,7=5,8=1,9=6,10=1,12=5"),
    ("guard-procedure", "4=1,5=6", "ended", "2=1,3=6,4=0,9=6,10=1,11=6,12=6"),
    ("lookup", "0=63,95=9", "ended", "1=9"),
    ("lookup", "0=64,95=9", "refused 12 2", ""),
    ("lookup-guarded", "1=7,2=5,32=1", "ended", "2=7"),
    ("lookup-guarded", "0=63,1=7,2=5,95=1", "ended", "2=7"),
    ("lookup-guarded", "0=63,1=7,2=5,94=1", "ended", "2=0"),
    ("lookup-guarded", "0=64,1=7,2=5", "ended", "2=0"),
    ("lookup-guarded", "0=-1,1=7,2=5", "ended", "2=0"),
    ("message", "0=1,32=5,33=6,98=7", "ended", "96=5,97=6"),
    ("message", "32=5,33=6,98=7", "ended", ""),
    ("scrub", "1=2,32=4,33=5,34=6,35=7", "ended", "0=4,2=3,33=0,34=0"),
    ("wage", "0=100,1=3,3=2,34=20", "ended", "0=160,2=4"),
    ("wage", "0=100,1=-3,3=2,34=20", "ended", "2=1"),
    ("total", "1=2,33=30,34=12", "ended", "0=42,2=3"),
    ("total", "1=1,33=30,34=12", "ended", "0=30,2=2"),
    ("retry", "0=2,1=5", "ended", "0=0,2=5,3=1"),
    ("retry", "1=5,2=6", "ended", ""),
];

#[test]
fn programs_do_what_they_should() {
    for (name, start, end, changes) in RUNS {
        let old = store_of(start).expect("a store");
        let mut new = old.clone();
        let (scalars, arrays) = new.split_at_mut(SCALARS);
        assert_eq!(run(&bytes(name), 100, scalars, arrays, STANDARD).end_text(), end, "{name} {start}");
        assert_eq!(changes_of(&old, &new), changes, "{name} {start}");
    }
}

/// Demand 3 by search: agreeing starts, agreeing ends.
#[test]
fn good_contracts_hold_of_runs() {
    for (name, _, bytes) in expected().into_iter().filter(|(_, line, _)| line.starts_with("accepted")) {
        let file = read(&bytes, STANDARD).expect("readable");
        let mut agreed = 0;
        for i in 0..10_000 {
            let found = try_pair(&mut file_prng(32, i), &file, 100).0;
            assert_ne!(found, Found::Counterexample, "{name}");
            agreed += u64::from(found == Found::Agree);
        }
        assert!(agreed > 200, "{name}: {agreed}");
    }
}

/// `index=value,...` as a store over all integers: 0 wherever nothing is given.
fn store(text: &str) -> Store {
    let values = store_of(text).expect("a store");
    let (scalars, elements) = values.split_at(SCALARS);
    let array = |elements: &[i64]| {
        let places = elements.iter().enumerate();
        places.fold(Map::everywhere(Big::from(0)), |map, (i, v)| map.with(Big::from(i as i64), Big::from(*v)))
    };
    Store {
        scalars: scalars.iter().map(|value| Big::from(*value)).collect(),
        arrays: elements.chunks(INDEXES).map(array).collect(),
    }
}

/// Two starts: do they agree as P demands, and do their ends agree as Q demands?
fn judged_by_runs(file: &File, one: &str, two: &str) -> (bool, bool) {
    let starts = [store(one), store(two)];
    let mut ends = starts.clone();
    for end in &mut ends {
        unbounded::run(&file.command, &file.procedures, end, &mut 100).expect("the program ends");
    }
    (agree(&file.pre, &starts[0], &starts[1]), agree(&file.post, &ends[0], &ends[1]))
}

/// A faulty example, the good one, and two stores that break the contract of the first.
const LEAKS: [[&str; 4]; 9] = [
    ["guard-procedure-late", "guard-procedure", "0=1,12=3", "0=1,12=4"],
    ["guard-procedure-ready", "guard-procedure", "0=1", "0=1,6=1"],
    ["guard-without-test", "guard-output-0", "5=5,3=7,4=1", "5=5,3=7,4=0"],
    ["guard-rule-18", "guard-output-0", "5=5,3=7", "5=5,3=8"],
    ["guard-crossed", "guard-output-0", "5=5,3=7,0=1,4=1,1=3", "5=5,3=7,0=1,4=1,1=4"],
    ["lookup-narrow", "lookup", "0=40,72=1", "0=40,72=2"],
    ["message-crossed", "message", "0=1,34=7", "0=1,34=8"],
    ["wage-without-hours", "wage", "1=1,32=5", "1=2,32=5"],
    ["retry-before", "retry", "0=1,1=5", "0=1,1=6"],
];

/// A store as `examples/README.md` and `flowrun` write it: x5=5 a0[3]=7.
fn shown(store: &str) -> String {
    let word = |field: &str| {
        let (index, value) = field.split_once('=').expect("INDEX=VALUE");
        match index.parse::<usize>().expect("an index") {
            scalar @ 0..=31 => format!("x{scalar}={value}"),
            other => format!("a{}[{}]={value}", (other - 32) / 64, (other - 32) % 64),
        }
    };
    store.split(',').map(word).collect::<Vec<String>>().join(" ")
}

/// The pairs of `examples/README.md`: each faulty contract is broken, and the good one holds of them.
#[test]
fn faulty_contracts_are_broken_by_runs() {
    let readme = readme().replace('\n', " ");
    for [name, good, one, two] in LEAKS {
        assert!(readme.contains(&format!("`{}` and `{}`", shown(one), shown(two))), "{name}");
        let file = |name: &str| read(&bytes(name), STANDARD).expect("readable");
        assert_eq!(judged_by_runs(&file(name), one, two), (true, false), "{name}");
        let (agreed, ended) = judged_by_runs(&file(good), one, two);
        assert!(!agreed || ended, "{name}");
    }
    let refused = expected().into_iter().filter(|(_, line, _)| line.starts_with("refused"));
    let names: BTreeSet<String> = refused.map(|(name, _, _)| name).collect();
    assert_eq!(names, LEAKS.iter().map(|leak| leak[0].to_string()).collect());
}

/// Figure 3 (a), written out: what the two outputs derive from.
#[test]
fn the_contract_is_that_of_figure_3() {
    let file = read(&bytes("guard-both"), STANDARD).expect("readable");
    let shown: Vec<String> = file.pre.iter().map(|member| NAMES.member(member)).collect();
    let wanted = [
        "IN_1_RDY = 1 ∧ ¬(OUT_0_RDY = 1) ⇒ IN_1_DAT",
        "¬(IN_1_RDY = 1) ∨ OUT_0_RDY = 1 ⇒ OUT_0_DAT",
        "true ⇒ (IN_1_RDY = 1)",
        "true ⇒ (OUT_0_RDY = 1)",
        "IN_0_RDY = 1 ∧ ¬(OUT_1_RDY = 1) ⇒ IN_0_DAT",
        "¬(IN_0_RDY = 1) ∨ OUT_1_RDY = 1 ⇒ OUT_1_DAT",
        "true ⇒ (IN_0_RDY = 1)",
        "true ⇒ (OUT_1_RDY = 1)",
    ];
    assert_eq!(shown, wanted);
    let outputs: Vec<&Expression> = file.post.iter().map(|member| &member.e).collect();
    let shown: Vec<String> = outputs.into_iter().map(|e| NAMES.expression(e)).collect();
    assert_eq!(shown, ["OUT_0_DAT", "OUT_1_DAT"]);
}

/// The tidied guard has the program and the contract of the other, and less words of evidence.
#[test]
fn the_tidied_guard_is_the_guard() {
    let [both, tidied] = ["guard-both", "guard-tidied"].map(|name| read(&bytes(name), STANDARD).expect("readable"));
    assert_eq!((both.command, both.pre, both.post), (tidied.command, tidied.pre, tidied.post));
    assert_eq!(bytes("guard-both").len() - bytes("guard-tidied").len(), 4 * 24);
}
