//! All rows of the outside vectors in ../tests, or in the folder SECOND_VECTORS if it is given.

use second::layout::settings::STANDARD;
use second::naive::judge::check;
use second::naive::run::{run, SCALARS};
use second::tool::calls::{compare_rows, NAIVE};
use second::tool::rows::{bytes_of_hex, changes_of, store_of};
use std::path::PathBuf;

fn folder() -> PathBuf {
    PathBuf::from(std::env::var("SECOND_VECTORS").unwrap_or("../tests".to_string()))
}

fn rows(file: &str) -> Vec<String> {
    let text = std::fs::read_to_string(folder().join(file)).expect("a text of vectors");
    text.lines().filter(|line| !line.starts_with('#')).map(str::to_string).collect()
}

#[test]
fn check_rows() {
    let mut agreed = 0;
    let mut differ = Vec::new();
    for row in rows("rows.tsv") {
        let fields: Vec<&str> = row.split('\t').collect();
        let bytes = bytes_of_hex(fields[2]).expect("hexadecimal");
        let line = check(&bytes).line();
        if line == fields[1] {
            agreed += 1;
        } else {
            differ.push(format!("{}: {} wanted, {line} given", fields[0], fields[1]));
        }
    }
    println!("rows.tsv: {agreed} rows agree, {} differ", differ.len());
    assert!(differ.is_empty(), "{}", differ.join("\n"));
    assert!(agreed > 0);
}

#[test]
fn run_rows() {
    let mut agreed = 0;
    let mut differ = Vec::new();
    for row in rows("runs.tsv") {
        let fields: Vec<&str> = row.split('\t').collect();
        let budget: u64 = fields[1].parse().expect("a budget");
        let bytes = bytes_of_hex(fields[4]).expect("hexadecimal");
        let old = store_of(fields[5]).expect("a store");
        let changes = fields.get(6).copied().unwrap_or("");
        let mut store = old.clone();
        let (scalars, arrays) = store.split_at_mut(SCALARS);
        let outcome = run(&bytes, budget, scalars, arrays, STANDARD);
        let given = format!("{} {} [{}]", outcome.end_text(), outcome.steps, changes_of(&old, &store));
        let wanted = format!("{} {} [{changes}]", fields[2], fields[3]);
        if given == wanted {
            agreed += 1;
        } else {
            differ.push(format!("{}: {wanted} wanted, {given} given", fields[0]));
        }
    }
    println!("runs.tsv: {agreed} rows agree, {} differ", differ.len());
    assert!(differ.is_empty(), "{}", differ.join("\n"));
    assert!(agreed > 0);
}

#[test]
fn call_rows() {
    let text = std::fs::read_to_string(folder().join("calls.tsv")).expect("a text of vectors");
    let (compared, differ) = compare_rows(&text, &NAIVE).expect("rows of calls");
    println!("calls.tsv: {compared} rows, {} differ", differ.len());
    assert!(differ.is_empty(), "{}", differ.join("\n"));
    assert!(compared > 100);
}

fn whole_files(sub: &str) {
    let folder = folder().join(sub);
    let expected = std::fs::read_to_string(folder.join("expected")).expect("expected");
    let mut agreed = 0;
    for row in expected.lines() {
        let fields: Vec<&str> = row.split('\t').collect();
        let bytes = std::fs::read(folder.join(fields[0])).expect("a file");
        assert_eq!(check(&bytes).line(), fields[1], "{}", fields[0]);
        agreed += 1;
    }
    println!("{sub}: {agreed} files agree");
    assert!(agreed > 0);
}

#[test]
fn usual_files() {
    whole_files("usual");
}

#[test]
fn worst_files() {
    whole_files("worst");
}
