//! `flowview` and `flowasm`: round trips, the marked word, the text itself, and the faults of a text.

use second::generate::mutate::mutate;
use second::generate::settings::settings;
use second::generate::{file_prng, mixed};
use second::layout::settings::{Settings, STANDARD};
use second::layout::words::{bytes_of, pack, words_of, Refusal};
use second::naive::judge::{check, check_settings, Answer};
use second::naive::read::read;
use second::tool::rows::bytes_of_hex;
use second::view::assemble::assemble;
use second::view::meaning::refusal_meaning;
use second::view::show::NUMBERED;
use second::view::{view, view_parts, walk};
use std::process::Command;

/// The files of the committed rows.
fn rows() -> Vec<Vec<u8>> {
    let text = std::fs::read_to_string("../tests/rows.tsv").expect("the rows");
    let rows = text.lines().filter(|row| !row.starts_with('#'));
    let files: Vec<Vec<u8>> =
        rows.map(|row| bytes_of_hex(row.split('\t').nth(2).expect("bytes")).expect("hexadecimal")).collect();
    assert!(files.len() > 200);
    files
}

fn generated() -> Vec<Vec<u8>> {
    let mut files = Vec::new();
    for i in 0..1_500 {
        let bytes = mixed(21, i).1;
        files.push(mutate(&mut file_prng(22, i), &bytes));
        files.push(bytes);
    }
    files
}

/// The lines of a view that show a word: the place, the text after the place, and whether it is marked.
fn shown(text: &str) -> Vec<(usize, String, bool)> {
    let mut lines = Vec::new();
    for line in text.lines() {
        if let Some((left, right)) = line.split_once('|') {
            let place = left.trim_start_matches('>').trim().parse().expect("a place");
            lines.push((place, right.to_string(), left.starts_with('>')));
        }
    }
    lines
}

/// The refused word and no other is marked; up to it, or to the end if the file reads, words have a meaning.
fn marks(bytes: &[u8], settings: Settings) {
    let text = view(bytes, settings);
    let lines = shown(&text);
    let marked: Vec<_> = lines.iter().filter(|line| line.2).collect();
    let refusal = match check_settings(bytes, settings) {
        Answer::Refused(refusal) if ![1, 19].contains(&refusal.number) => refusal,
        answer => {
            assert!(marked.is_empty());
            assert!(text.starts_with(&match answer {
                Answer::Accepted(_) => format!("# {} words: {}\n", bytes.len() / 4, answer.line()),
                Answer::Refused(_) => format!("# {}: ", answer.line()),
            }));
            return;
        }
    };
    assert_eq!(marked.len(), 1);
    assert_eq!(marked[0].0, refusal.place);
    assert!(marked[0].1.contains(&format!("# REFUSED {}: ", refusal.number)));
    for (place, right, _) in &lines {
        let said = *place <= refusal.place || refusal.number >= 7;
        assert_eq!(right.contains('#'), said, "place {place} in {text}");
    }
}

/// What `view` shows as readable is what `read` reads.
fn walks(bytes: &[u8], settings: Settings) {
    let Ok(words) = words_of(bytes) else { return };
    let stop = walk(&words, settings).stop.map(|stop| stop.refusal);
    let wanted: Option<Refusal> = read(bytes, settings).err().filter(|refusal| refusal.number <= 6);
    assert_eq!(stop, wanted);
}

fn all_under(bytes: &[u8], settings: Settings) {
    assert_eq!(assemble(&view(bytes, settings)).as_deref(), Ok(bytes));
    marks(bytes, settings);
    if settings.in_range() {
        walks(bytes, settings);
    }
}

fn all(bytes: &[u8]) {
    all_under(bytes, STANDARD);
}

/// The same under settings, also outside their ranges (refusal 19).
#[test]
fn generated_files_under_settings() {
    let mut outside = 0;
    for (i, bytes) in generated().iter().enumerate() {
        let settings = settings(&mut file_prng(23, i as u64), bytes);
        all_under(bytes, settings);
        outside += usize::from(!settings.in_range());
    }
    assert!(outside > 100, "{outside}");
}

/// The limits that a refusal names are those that were set.
#[test]
fn refusals_under_settings() {
    let bytes = file(&[(63, 6), (26, 0), (9, 1), (32, 0), (32, 0), (33, 10)]);
    let first = |settings: Settings| view_parts(&bytes, &NUMBERED, settings).lines().next().expect("a line").to_string();
    let line = first(Settings { depth: 1, ..STANDARD });
    assert_eq!(line, "# 24 bytes: refused 4 2: this word is deeper than 1");
    let line = first(Settings { depth: 0, ..STANDARD });
    let ranges = "comparisons 0 to 16, depth 1 to 256, members 0 to 128";
    assert_eq!(line, format!("# 24 bytes: refused 19 0: a setting is outside its range: {ranges}"));
    assert_eq!(refusal_meaning(9, STANDARD), "a condition of this rule is an implication over more than 10 comparisons");
}

#[test]
fn rows_with_known_answers() {
    rows().iter().for_each(|bytes| all(bytes));
}

#[test]
fn generated_and_mutated_files() {
    let mut seen = [0; 17];
    for bytes in generated() {
        all(&bytes);
        seen[match check(&bytes) {
            Answer::Accepted(_) => 0,
            Answer::Refused(refusal) => refusal.number as usize,
        }] += 1;
    }
    assert!([0, 1, 2, 3, 4, 5, 6, 7, 8, 9, 16].iter().all(|number| seen[*number] > 0), "{seen:?}");
}

#[test]
fn byte_counts_that_are_refused() {
    for length in [0, 1, 3, 7, 32_769, 32_770, 32_772, 40_000] {
        let bytes: Vec<u8> = (0..length).map(|i| (i * 7) as u8).collect();
        all(&bytes);
        let first = view(&bytes, STANDARD).lines().next().expect("a line").to_string();
        assert!(first.ends_with(&format!("; this file has {length}")), "{first}");
    }
}

fn file(words: &[(u32, u32)]) -> Vec<u8> {
    bytes_of(&words.iter().map(|(k, p)| pack(*k, *p)).collect::<Vec<u32>>())
}

#[test]
fn the_text_of_a_small_file() {
    let bytes = file(&[(63, 10), (27, 0), (1, 67_108_863), (32, 1), (9, 1), (2, 2), (32, 1), (9, 1), (2, 0), (33, 3)]);
    let text = "\
# 10 words: refused 8 9
     0 | 63:10                      # a file of 10 words
     1 | 27:0                       # program C: assign scalar 0
     2 |   1:67108863               # right side: constant -1
     3 | 32:1                       # precondition P: set of 1 member
     4 |   9:1                      # member 1, antecedent: true
     5 |   2:2                      # member 1, consequent: scalar 2
     6 | 32:1                       # postcondition Q: set of 1 member
     7 |   9:1                      # member 1, antecedent: true
     8 |   2:0                      # member 1, consequent: scalar 0
>    9 | 33:3                       # REFUSED 8: a condition of this rule fails; evidence: flow rule 3, scalar assignment: \
P same as Q with the right side for the scalar
";
    assert_eq!(view(&bytes, STANDARD), text);
}

#[test]
fn the_text_of_a_file_that_does_not_read() {
    let bytes = file(&[(63, 6), (26, 0), (2, 5), (32, 0), (32, 0), (33, 5)]);
    let text = "\
# 6 words: refused 5 2
     0 | 63:6                       # a file of 6 words
     1 | 26:0                       # program C: assert
>    2 | 2:5                        # REFUSED 5: this word's kind or payload isn't allowed here; due here is a boolean \
expression (test)
     3 | 32:0
     4 | 32:0
     5 | 33:5
";
    assert_eq!(view(&bytes, STANDARD), text);
}

#[test]
fn the_text_of_a_file_with_procedures() {
    let bytes = file(&[(63, 10), (62, 1), (24, 0), (32, 0), (32, 0), (33, 1), (38, 1), (32, 0), (32, 0), (33, 31)]);
    let text = "\
# 10 words: refused 16 6
     0 | 63:10                      # a file of 10 words
     1 | 62:1                       # a table of 1 procedure
     2 | 24:0                       # procedure 0, body C: skip
     3 | 32:0                       # procedure 0, precondition P: set of 0 members
     4 | 32:0                       # procedure 0, postcondition Q: set of 0 members
     5 | 33:1                       # procedure 0, evidence: flow rule 1, skip: P same as Q
>    6 | 38:1                       # REFUSED 16: this call's number is not below its own procedure's, or not in the table; program C: call \
procedure 1
     7 | 32:0                       # precondition P: set of 0 members
     8 | 32:0                       # postcondition Q: set of 0 members
     9 | 33:31                      # evidence: flow rule 31, call: P same as the procedure's precondition, Q same as its \
postcondition
";
    assert_eq!(view(&bytes, STANDARD), text);
}

#[test]
fn the_parts_of_a_file_with_procedures() {
    let text = "63:* 62:2 27:0 2:1 32:1 9:1 2:1 32:1 9:1 2:0 33:3 25:0 38:0 24:0 32:0 32:0 33:10
        29:0 9:1 38:1 24:0 32:1 9:1 2:1 32:1 9:1 2:1 33:11 35:29";
    let parts = "\
# 116 bytes: accepted 4
procedure 0
  x0 := x1
precondition of procedure 0
  true ⇒ x1
postcondition of procedure 0
  true ⇒ x0
procedure 1
  call procedure 0
  skip
precondition of procedure 1
  (empty)
postcondition of procedure 1
  (empty)
program
  if true then
    call procedure 1
  else
    skip
precondition
  true ⇒ x1
postcondition
  true ⇒ x1
";
    assert_eq!(view_parts(&assemble(text).expect("a text"), &NUMBERED, STANDARD), parts);
}

/// Every form of command but a call, and both kinds of array assignment.
#[test]
fn the_parts_of_a_file() {
    let text = "63:* 25:0 25:0 26:0 11:0 8:1 2:0 1:-3 9:0 28:1 18:0 16:1 2:0 4:0 16:2 3:0 2:0 1:1 29:0 12:0 8:0 2:1 1:0
        30:0 10:0 8:2 2:0 2:1 9:1 25:0 28:2 18:0 17:0 1:0 2:0 31:39 24:0 27:3 3:2 2:0 2:1
        32:1 9:1 18:0 16:1 2:0 2:1 32:0 33:10";
    let bytes = assemble(text).expect("a text");
    let parts = "\
# 196 bytes: refused 8 48: a condition of this rule fails
program
  assert(x0 < -3 ∨ false)
  a1[x0] := a2[(x0 + 1)]
  if ¬(x1 = 0) then
    while x0 ≤ x1 ∧ true do
      a2 := Z{0 : x0}
      for x7 ← 1 to x1 do
        skip
  else
    x3 := (x0 × x1)
precondition
  true ⇒ a1{x0 : x1}
postcondition
  (empty)
";
    assert_eq!(view_parts(&bytes, &NUMBERED, STANDARD), parts);
}

/// The answer comes first, and the parts follow if the file reads.
#[test]
fn parts_of_generated_files() {
    for bytes in generated() {
        let text = view_parts(&bytes, &NUMBERED, STANDARD);
        assert!(text.starts_with(&format!("# {} bytes: {}", bytes.len(), check(&bytes).line())));
        assert_eq!(text.contains("\nprogram\n  "), read(&bytes, STANDARD).is_ok());
    }
}

#[test]
fn text_written_by_hand() {
    let text = "\
# copy: x := y
63:*          # the words are counted
27:0 2:1      # x := y
 77 |32:1 9:1 2:1\r
>|  32:1
9:1 2:0
|
33:3";
    let words = [(63, 10), (27, 0), (2, 1), (32, 1), (9, 1), (2, 1), (32, 1), (9, 1), (2, 0), (33, 3)];
    assert_eq!(assemble(text), Ok(file(&words)));
    assert_eq!(assemble("1:-1 1:-33554432 1:67108863"), Ok(file(&[(1, 67_108_863), (1, 33_554_432), (1, 67_108_863)])));
    assert_eq!(assemble("63:* bytes 0a"), Err(second::view::assemble::Fault {
        line: 1,
        message: "`bytes` is no word: kind:payload is due".to_string()
    }));
    assert_eq!(assemble("63:*\nbytes 0a ff"), Ok(vec![1, 0, 0, 252, 10, 255]));
    assert_eq!(assemble(""), Ok(Vec::new()));
}

#[test]
fn faults_of_a_text() {
    let faults = [
        ("63:*\n\n27:0 2", 3, "`2` is no word"),
        ("27", 1, "`27` is no word"),
        ("64:0", 1, "kind `64`"),
        (":0", 1, "kind ``"),
        ("-1:0", 1, "kind `-1`"),
        ("+1:0", 1, "kind `+1`"),
        ("2:", 1, "payload ``"),
        ("2:67108864", 1, "payload `67108864`"),
        ("2:99999999999999999999999", 1, "payload `99999999999999999999999`"),
        ("2:1:1", 1, "payload `1:1`"),
        ("# fine\n2:-1", 2, "only a constant"),
        ("1:-33554433", 1, "only a constant"),
        ("1:--1", 1, "only a constant"),
        ("32:*", 1, "only the payload of 63:*"),
        ("27:0 | 2:1", 1, "`27:0` before | is no place"),
        ("1 | 24:0 | 32:0", 1, "`|` is no word"),
        ("24:0 ; skip", 1, "`;` is no word"),
        ("bytes", 1, "one to three bytes"),
        ("bytes 00 00 00 00", 1, "one to three bytes"),
        ("bytes 5", 1, "`5` is no byte"),
        ("bytes +5", 1, "`+5` is no byte"),
        ("bytes 00\n24:0", 2, "words follow the line of bytes"),
    ];
    for (text, line, message) in faults {
        let fault = assemble(text).expect_err(text);
        assert_eq!(fault.line, line, "{text}");
        assert!(fault.message.contains(message), "{text}: {}", fault.message);
    }
}

/// The two programs: what they write and how they end.
#[test]
fn the_programs() {
    let folder = std::env::temp_dir().join(format!("flowtext-{}", std::process::id()));
    std::fs::create_dir_all(&folder).expect("a folder");
    let path = |name: &str| folder.join(name);
    let bytes = file(&[(63, 4), (24, 0), (32, 0), (32, 0)]);
    std::fs::write(path("file"), &bytes).expect("a file");
    let viewed = Command::new(env!("CARGO_BIN_EXE_flowview")).arg(path("file")).output().expect("flowview");
    assert_eq!(viewed.status.code(), Some(1), "a refused file");
    assert_eq!(viewed.stdout, view(&bytes, STANDARD).into_bytes());
    std::fs::write(path("text"), &viewed.stdout).expect("a text");
    let flowasm = |arguments: &[&str]| {
        let paths = arguments.iter().map(|name| path(name));
        Command::new(env!("CARGO_BIN_EXE_flowasm")).args(paths).output().expect("flowasm")
    };
    let made = flowasm(&["text"]);
    assert!(made.status.success());
    assert_eq!(made.stdout, bytes);
    assert!(flowasm(&["text", "again"]).status.success());
    assert_eq!(std::fs::read(path("again")).expect("again"), bytes);
    for (text, line) in [(&b"63:*\n24"[..], ":2: `24` is no word"), (&b"63:*\n\n\xff"[..], ":3: this is no text")] {
        std::fs::write(path("text"), text).expect("a text");
        let refused = flowasm(&["text", "none"]);
        assert_eq!(refused.status.code(), Some(2));
        assert!(String::from_utf8_lossy(&refused.stderr).contains(line));
        assert!(!path("none").exists());
    }
    assert_eq!(flowasm(&["missing"]).status.code(), Some(2));
    std::fs::remove_dir_all(&folder).expect("the folder is ours");
}
