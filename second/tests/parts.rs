//! The parts of `src`: each names the parts that its `mod.rs` says, and no others, all of them above it in lib.rs. The naive
//! part names the layout alone and the fast part nothing, so they share no code, and neither knows the generator.

use std::collections::BTreeSet;
use std::path::{Path, PathBuf};

type Names = BTreeSet<String>;

fn src() -> PathBuf {
    Path::new(env!("CARGO_MANIFEST_DIR")).join("src")
}

fn text(path: &Path) -> String {
    std::fs::read_to_string(path).unwrap_or_else(|error| panic!("{}: {error}", path.display()))
}

fn code(text: &str) -> String {
    text.lines().map(|line| line.split("//").next().unwrap_or_default()).collect::<Vec<_>>().join("\n")
}

/// The parts, in the order of lib.rs, which has nothing else.
fn parts() -> Vec<String> {
    let text = code(&text(&src().join("lib.rs")));
    let lines = text.lines().map(str::trim).filter(|line| !line.is_empty());
    let part = |line: &str| line.strip_prefix("pub mod ").and_then(|rest| rest.strip_suffix(';')).map(str::to_string);
    lines.map(|line| part(line).unwrap_or_else(|| panic!("lib.rs has more than parts: {line}"))).collect()
}

/// The Rust files of a folder and of the folders in it.
fn files(folder: &Path) -> Vec<PathBuf> {
    let mut all = Vec::new();
    for entry in std::fs::read_dir(folder).expect("a folder of src") {
        let path = entry.expect("an entry").path();
        if path.is_dir() {
            all.extend(files(&path));
        } else if path.extension().is_some_and(|e| e == "rs") {
            all.push(path);
        }
    }
    all
}

/// The parts that a text names: after `crate::`. Other ways to reach one are faults.
fn named(text: &str, parts: &[String]) -> Result<Names, String> {
    let code = code(text);
    for way in ["super::super", "#[path", "include!", "extern crate"] {
        if code.contains(way) {
            return Err(format!("`{way}`"));
        }
    }
    let mut names = Names::new();
    for after in code.replace("pub(crate)", "pub").split("crate").skip(1) {
        let path = after.strip_prefix("::").ok_or(format!("`crate{after:.20}`"))?;
        let name: String = path.chars().take_while(|c| c.is_alphanumeric() || *c == '_').collect();
        if !parts.contains(&name) {
            return Err(format!("`crate::{path:.20}` names no part"));
        }
        names.insert(name);
    }
    Ok(names)
}

/// The parts that the files of a part name, without itself.
fn used(part: &str, parts: &[String]) -> Names {
    let folder = src().join(part);
    let mut all = Names::new();
    for path in files(&folder) {
        let text = text(&path);
        all.extend(named(&text, parts).unwrap_or_else(|fault| panic!("{}: {fault}", path.display())));
        let top = path == folder.join("mod.rs");
        assert!(!top || !code(&text).contains("super"), "{}: `super` is no part of it", path.display());
    }
    all.remove(part);
    all
}

/// What a part's `mod.rs` says that it uses, as README.md does too.
fn said(part: &str) -> Names {
    let head = text(&src().join(part).join("mod.rs"));
    let line = head.lines().find_map(|line| line.strip_prefix("//! Uses: ")).unwrap_or_else(|| panic!("{part}: no `Uses:`"));
    let line = line.trim_end_matches('.');
    let map = text(&src().join("../README.md"));
    let in_map = |row: &str| row.starts_with(&format!("| `{part}` |")) && row.contains(&format!(" | {line} | "));
    assert!(map.lines().any(in_map), "README.md has another row for {part}");
    line.split(", ").filter(|name| *name != "nothing").map(str::to_string).collect()
}

#[test]
fn each_part_uses_what_it_says() {
    let parts = parts();
    for (i, part) in parts.iter().enumerate() {
        let used = used(part, &parts);
        assert_eq!(used, said(part), "{part}: what it names, and what its mod.rs says");
        assert!(used.iter().all(|name| parts[..i].contains(name)), "{part} names a part below it");
    }
}

#[test]
fn naive_and_fast_share_no_code() {
    let parts = parts();
    assert_eq!(used("layout", &parts), Names::new());
    assert_eq!(used("naive", &parts), Names::from(["layout".to_string()]));
    assert_eq!(used("fast", &parts), Names::new());
}

#[test]
fn every_folder_is_a_part() {
    let parts = parts();
    for entry in std::fs::read_dir(src()).expect("src") {
        let name = entry.expect("an entry").file_name().into_string().expect("a plain name");
        assert!(name == "lib.rs" || name == "bin" || parts.contains(&name), "src/{name} is no part");
    }
}

/// What looks for names sees them.
#[test]
fn names_are_seen() {
    let parts = parts();
    for (text, name) in [
        ("use crate::fast::check;", "fast"),
        ("    let x = crate::generate::mixed(1, 2);", "generate"),
        ("pub(crate) use crate::naive::read::*; // crate::fast", "naive"),
        ("vec![$(crate::view::view($e)),*]", "view"),
    ] {
        assert_eq!(named(text, &parts), Ok(Names::from([name.to_string()])), "{text}");
    }
    for fault in [
        "use crate::{fast, naive};",
        "use crate::*;",
        "use crate as all;",
        "extern crate self as second;",
        "use super::super::fast;",
        "#[path = \"../fast/read.rs\"] mod read;",
        "include!(\"../fast/read.rs\");",
        "use crate::other::read;",
    ] {
        assert!(named(fault, &parts).is_err(), "{fault}");
    }
}
