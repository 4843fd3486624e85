//! Text made into a file. A line is `PLACE | WORDS # COMMENT`; the place with its `|`, the words and the comment may
//! each be left out, and the place is not looked at, so that words can be put in and taken out. A word is
//! `kind:payload` in decimal; `1:-5` is a negative constant, `63:*` the count of the words in the file. A last line
//! `bytes 05 00` gives up to three bytes that make no word, in hexadecimal.

use crate::layout::words::{bytes_of, pack, payload_of, PAYLOAD_MASK};

/// A fault of the text: the line from 1, and what is wrong with it.
#[derive(Clone, PartialEq, Eq, Debug)]
pub struct Fault {
    pub line: usize,
    pub message: String,
}

const COUNT: u32 = 63;
const CONSTANT: u32 = 1;
const LEAST_CONSTANT: i64 = -33_554_432;

/// A word as written: `63:*` waits for the count.
enum Written {
    Word(u32),
    Count,
}

/// Text as it is lent: also text that is no UTF-8 is refused by its line.
pub fn assemble_bytes(text: &[u8]) -> Result<Vec<u8>, Fault> {
    match std::str::from_utf8(text) {
        Ok(text) => assemble(text),
        Err(error) => {
            let good = &text[..error.valid_up_to()];
            let line = 1 + good.iter().filter(|byte| **byte == b'\n').count();
            Err(Fault { line, message: "this is no text (UTF-8)".to_string() })
        }
    }
}

pub fn assemble(text: &str) -> Result<Vec<u8>, Fault> {
    let mut written = Vec::new();
    let mut rest: Option<Vec<u8>> = None;
    let mut last = 0;
    for (i, line) in text.lines().enumerate() {
        let fault = |message| Fault { line: i + 1, message };
        let words = words_part(line).map_err(fault)?;
        if !words.is_empty() && rest.is_some() {
            return Err(fault("words follow the line of bytes".to_string()));
        }
        if words.first() == Some(&"bytes") {
            rest = Some(bytes_line(&words[1..]).map_err(fault)?);
            continue;
        }
        for word in words {
            written.push(read_word(word).map_err(fault)?);
            last = i + 1;
        }
    }
    let count = u32::try_from(written.len()).ok().filter(|n| *n <= PAYLOAD_MASK);
    let count = count.ok_or(Fault { line: last, message: "more words than 63:n can say".to_string() })?;
    let words: Vec<u32> = written.iter().map(|w| packed(w, count)).collect();
    let mut bytes = bytes_of(&words);
    bytes.extend(rest.unwrap_or_default());
    Ok(bytes)
}

fn packed(written: &Written, count: u32) -> u32 {
    match written {
        Written::Word(word) => *word,
        Written::Count => pack(COUNT, count),
    }
}

/// The words of a line, without what stands before `|` and after `#`.
fn words_part(line: &str) -> Result<Vec<&str>, String> {
    let line = line.split('#').next().unwrap_or("");
    let words = match line.split_once('|') {
        None => line,
        Some((left, words)) => {
            let place = left.trim().trim_start_matches('>').trim();
            if !place.chars().all(|c| c.is_ascii_digit()) {
                return Err(format!("`{}` before | is no place", left.trim()));
            }
            words
        }
    };
    Ok(words.split_whitespace().collect())
}

fn bytes_line(hex: &[&str]) -> Result<Vec<u8>, String> {
    if hex.is_empty() || hex.len() > 3 {
        return Err("one to three bytes make no word; four are a word".to_string());
    }
    let byte = |h: &&str| match u8::from_str_radix(h, 16) {
        Ok(byte) if h.len() == 2 && !h.starts_with('+') => Ok(byte),
        _ => Err(format!("`{h}` is no byte of two hexadecimal digits")),
    };
    hex.iter().map(byte).collect()
}

fn number(text: &str) -> Option<u64> {
    let digits = !text.is_empty() && text.chars().all(|c| c.is_ascii_digit());
    digits.then(|| text.parse().unwrap_or(u64::MAX))
}

fn read_word(text: &str) -> Result<Written, String> {
    let Some((kind, payload)) = text.split_once(':') else {
        return Err(format!("`{text}` is no word: kind:payload is due"));
    };
    let Some(kind) = number(kind).filter(|k| *k < 64) else {
        return Err(format!("kind `{kind}` of `{text}` is no number from 0 to 63"));
    };
    let kind = kind as u32;
    if payload == "*" {
        return match kind {
            COUNT => Ok(Written::Count),
            _ => Err(format!("`{text}`: only the payload of 63:* is worked out")),
        };
    }
    if let Some(size) = payload.strip_prefix('-') {
        return negative(kind, size).ok_or(format!(
            "payload of `{text}`: only a constant (kind 1) may be negative, to {LEAST_CONSTANT}"
        ));
    }
    match number(payload).filter(|p| *p <= u64::from(PAYLOAD_MASK)) {
        Some(payload) => Ok(Written::Word(pack(kind, payload as u32))),
        None => Err(format!("payload `{payload}` of `{text}` is no number from 0 to {PAYLOAD_MASK}")),
    }
}

fn negative(kind: u32, size: &str) -> Option<Written> {
    let value = -(number(size)?.min(1 << 40) as i64);
    let allowed = kind == CONSTANT && value >= LEAST_CONSTANT;
    allowed.then(|| Written::Word(pack(kind, payload_of(value))))
}
