//! View: files as text for people, and back. Here a file shown word by word: a line is a place, `|`, the word indented by its
//! depth, and after `#` its role and meaning. The refused word has `>` before its place. `assemble` takes the text back. And a
//! file's procedures, program and contract alone, in readable notation; or what each of its commands modifies. Each is shown as it is read
//! and judged under settings (request [6]).
//!
//! Uses: layout, naive.
//! For: `flowview` and `flowasm`, and the texts of `examples/`.

pub mod annotate;
pub mod assemble;
pub mod masks;
pub mod meaning;
pub mod show;

use self::meaning::{meaning, refusal_meaning, Sort};
use self::show::Names;
use crate::layout::settings::Settings;
use crate::layout::syntax::{File, Member};
use crate::layout::words::{pack, take_apart, words_of, Refusal, MOST_PROCEDURES};
use crate::naive::judge::{check_settings, Answer};
use crate::naive::read::read;

/// What is due at a word.
struct Due {
    sort: Sort,
    role: String,
    depth: usize,
}

/// A word that was read: its depth, role and meaning.
struct Shown {
    depth: usize,
    text: String,
}

/// Where refusals 2 to 6 stop the walk; what was due there, if anything.
pub struct Stop {
    pub refusal: Refusal,
    due: Option<Due>,
}

/// The words that read, in file order.
pub struct Walk {
    shown: Vec<Shown>,
    pub stop: Option<Stop>,
}

/// The outermost parts, four for each procedure and four for the main program, the last first: a stack.
fn outermost(procedures: u32) -> Vec<Due> {
    let mut parts = Vec::new();
    for i in 0..procedures {
        let role = |part: &str| format!("procedure {i}, {part}");
        parts.push((Sort::Command, role("body C")));
        parts.push((Sort::Set, role("precondition P")));
        parts.push((Sort::Set, role("postcondition Q")));
        parts.push((Sort::Flow, role("evidence")));
    }
    parts.push((Sort::Command, "program C".to_string()));
    parts.push((Sort::Set, "precondition P".to_string()));
    parts.push((Sort::Set, "postcondition Q".to_string()));
    parts.push((Sort::Flow, "evidence".to_string()));
    parts.into_iter().rev().map(|(sort, role)| Due { sort, role, depth: 1 }).collect()
}

/// The count of procedures, 0 if word 1 is no table of them.
fn table(words: &[u32]) -> u32 {
    match words.get(1).map(|word| take_apart(1, *word)) {
        Some(word) if word.kind == 62 && word.payload <= MOST_PROCEDURES => word.payload,
        _ => 0,
    }
}

/// Reads as far as refusals 2 to 6 allow. `words` is not empty, and the settings are in range.
pub fn walk(words: &[u32], settings: Settings) -> Walk {
    let n = words.len();
    if words[0] != pack(63, n as u32) {
        let stop = Stop { refusal: Refusal { number: 2, place: 0 }, due: None };
        return Walk { shown: Vec::new(), stop: Some(stop) };
    }
    let mut shown = vec![Shown { depth: 1, text: format!("a file of {n} words") }];
    let procedures = table(words);
    if procedures > 0 {
        let plural = if procedures == 1 { "" } else { "s" };
        shown.push(Shown { depth: 1, text: format!("a table of {procedures} procedure{plural}") });
    }
    let mut stack = outermost(procedures);
    while let Some(due) = stack.pop() {
        let place = shown.len();
        let said = words.get(place).and_then(|word| meaning(due.sort, take_apart(place, *word), settings));
        let number = match said {
            _ if place >= n => 3,
            _ if due.depth as u64 > settings.depth => 4,
            None => 5,
            Some(said) => {
                shown.push(Shown { depth: due.depth, text: format!("{}: {}", due.role, said.text) });
                for (sort, role) in said.parts.into_iter().rev() {
                    stack.push(Due { sort, role, depth: due.depth + 1 });
                }
                continue;
            }
        };
        return Walk { shown, stop: Some(Stop { refusal: Refusal { number, place }, due: Some(due) }) };
    }
    let place = shown.len();
    let follow = Stop { refusal: Refusal { number: 6, place }, due: None };
    Walk { shown, stop: (place < n).then_some(follow) }
}

/// The comment column, so that meanings of shallow words stand in line.
const COMMENT: usize = 36;

fn line(marked: bool, place: usize, depth: usize, word: &str, comment: &str) -> String {
    let mark = if marked { '>' } else { ' ' };
    let left = format!("{mark}{place:>5} | {}{word}", "  ".repeat(depth - 1));
    if comment.is_empty() {
        return format!("{left}\n");
    }
    let width = left.chars().count();
    let gap = " ".repeat(COMMENT.saturating_sub(width).max(2));
    format!("{left}{gap}# {comment}\n")
}

/// What is said at the refused word: the refusal, and what stands or was due there.
fn refused(refusal: Refusal, walk: &Walk, settings: Settings) -> String {
    let said = format!("REFUSED {}: {}", refusal.number, refusal_meaning(refusal.number, settings));
    if let Some(Stop { due: Some(due), .. }) = &walk.stop {
        return format!("{said}; due here is {} ({})", due.sort.name(), due.role);
    }
    match walk.shown.get(refusal.place) {
        Some(shown) => format!("{said}; {}", shown.text),
        None => said,
    }
}

fn plain(place: usize, word: u32) -> String {
    let word = take_apart(place, word);
    format!("{}:{}", word.kind, word.payload)
}

fn view_words(words: &[u32], refusal: Option<Refusal>, settings: Settings) -> String {
    let walk = walk(words, settings);
    let mut out = String::new();
    for (place, word) in words.iter().enumerate() {
        let (depth, text) = match walk.shown.get(place) {
            Some(shown) => (shown.depth, shown.text.clone()),
            None => (1, String::new()),
        };
        let here = refusal.filter(|r| r.place == place);
        let comment = here.map_or(text, |r| refused(r, &walk, settings));
        out.push_str(&line(here.is_some(), place, depth, &plain(place, *word), &comment));
    }
    // refusal 3 is at a word that is not there
    if let Some(r) = refusal.filter(|r| r.place == words.len()) {
        out.push_str(&line(true, r.place, 1, "", &refused(r, &walk, settings)));
    }
    out
}

/// Refusals 19 and 1: no word is read; whole words are listed, then the bytes that are left.
fn view_bytes(bytes: &[u8], refusal: Refusal, settings: Settings) -> String {
    let mut out = format!("# refused {} 0: {}", refusal.number, refusal_meaning(refusal.number, settings));
    out.push_str(&format!("; this file has {}\n", bytes.len()));
    let (whole, rest) = bytes.split_at(bytes.len() / 4 * 4);
    for (place, four) in whole.chunks(4).enumerate() {
        let word = u32::from_le_bytes([four[0], four[1], four[2], four[3]]);
        out.push_str(&line(false, place, 1, &plain(place, word), ""));
    }
    if !rest.is_empty() {
        let hex: Vec<String> = rest.iter().map(|byte| format!("{byte:02x}")).collect();
        out.push_str(&format!("bytes {}    # too few for a word\n", hex.join(" ")));
    }
    out
}

/// The words of a file that refusals 19 and 1 spare.
fn words_under(bytes: &[u8], settings: Settings) -> Result<Vec<u32>, Refusal> {
    settings.tried()?;
    words_of(bytes)
}

pub fn view(bytes: &[u8], settings: Settings) -> String {
    let words = match words_under(bytes, settings) {
        Ok(words) => words,
        Err(refusal) => return view_bytes(bytes, refusal, settings),
    };
    let answer = check_settings(bytes, settings);
    let refusal = match answer {
        Answer::Accepted(_) => None,
        Answer::Refused(refusal) => Some(refusal),
    };
    format!("# {} words: {}\n{}", words.len(), answer.line(), view_words(&words, refusal, settings))
}

fn set_lines(names: &Names, set: &[Member]) -> Vec<String> {
    if set.is_empty() {
        return vec!["(empty)".to_string()];
    }
    set.iter().map(|member| names.member(member)).collect()
}

/// Of each procedure and then of the main program: the commands, a line to each, then the two sets, a line to a member.
fn contract(names: &Names, file: &File) -> String {
    let mut parts = Vec::new();
    for (i, procedure) in file.procedures.iter().enumerate() {
        parts.push((format!("procedure {i}"), names.lines(&procedure.command)));
        parts.push((format!("precondition of procedure {i}"), set_lines(names, &procedure.pre)));
        parts.push((format!("postcondition of procedure {i}"), set_lines(names, &procedure.post)));
    }
    parts.push(("program".to_string(), names.lines(&file.command)));
    parts.push(("precondition".to_string(), set_lines(names, &file.pre)));
    parts.push(("postcondition".to_string(), set_lines(names, &file.post)));
    let mut out = String::new();
    for (title, lines) in parts {
        out.push_str(&format!("{title}\n"));
        lines.iter().for_each(|line| out.push_str(&format!("  {line}\n")));
    }
    out
}

/// The count of bytes and the answer.
fn headline(bytes: &[u8], settings: Settings) -> String {
    let answer = check_settings(bytes, settings);
    let said = match answer {
        Answer::Accepted(_) => String::new(),
        Answer::Refused(refusal) => format!(": {}", refusal_meaning(refusal.number, settings)),
    };
    format!("# {} bytes: {}{said}\n", bytes.len(), answer.line())
}

/// The answer, then the program and the two sets if there are some: refusals 8 and 9 are of the evidence alone.
pub fn view_parts(bytes: &[u8], names: &Names, settings: Settings) -> String {
    headline(bytes, settings) + &read(bytes, settings).map_or(String::new(), |file| contract(names, &file))
}
