//! Refusals 1 to 7 and 16. The depth that was set is counted down: each part is read within so many levels. Each part that is read leaves
//! its end and its identifiers, a boolean its plain form too; refusals 16 and 7 are seen on the way and said last. A body calls only
//! procedures before it, so what a call modifies is known when the call is read.

use super::layout::*;
use super::plain::Plain;
use super::settings::Limits;
use super::{refusal, Four, Parts, Refused};

/// A file that was read: the count of its procedures, the places of the main program's parts, and the count of all evidence words.
pub struct File {
    pub procedures: usize,
    pub main: Four,
    pub count: u32,
}

struct Reader<'a> {
    parts: &'a mut Parts,
    words: usize,
    at: usize,
    /// The most members of a set.
    members: u32,
    count: u32,
    /// The procedures that were read: those that may be called here.
    callable: usize,
    /// The first call that refusal 16 is true of, if any.
    bad_call: usize,
    /// The first `for` that refusal 7 is true of, if any.
    bad_for: usize,
}

/// The identifiers of what was read.
type Read = Result<u64, Refused>;

pub fn read(bytes: &[u8], limits: Limits, parts: &mut Parts) -> Result<File, Refused> {
    let words = read_words(bytes, parts)?;
    read_parts(words, limits, parts)
}

/// Refusals 1 and 2; the words are then in their array, and this is their count.
pub fn read_words(bytes: &[u8], parts: &mut Parts) -> Result<usize, Refused> {
    let words = bytes.len() / 4;
    if bytes.is_empty() || words > MOST_WORDS || bytes.len() % 4 != 0 {
        return Err(refusal(1, 0));
    }
    for (word, four) in parts.words.iter_mut().zip(bytes.chunks_exact(4)) {
        *word = u32::from_le_bytes([four[0], four[1], four[2], four[3]]);
    }
    if parts.words[0] != word(FILE, words as u32) {
        return Err(refusal(2, 0));
    }
    Ok(words)
}

/// Refusals 3 to 7 and 16 of so many words in their array.
pub fn read_parts(words: usize, limits: Limits, parts: &mut Parts) -> Result<File, Refused> {
    let mut reader = Reader::from(1, words, limits.members, parts);
    let file = reader.file(limits.depth)?;
    if reader.at < words {
        return Err(refusal(6, reader.at));
    }
    if reader.bad_call < words {
        return Err(refusal(16, reader.bad_call));
    }
    if reader.bad_for < words {
        return Err(refusal(7, reader.bad_for));
    }
    Ok(file)
}

/// Whether the words from a place to an end are one whole command without calls, within so many levels; what is known of them is then
/// stored. A command has no set in it.
pub fn read_command(place: usize, end: usize, levels: u32, parts: &mut Parts) -> bool {
    let mut reader = Reader::from(place, end, 0, parts);
    reader.command(levels).is_ok() && reader.at == end
}

impl<'a> Reader<'a> {
    /// Of the words from a place to an end.
    fn from(at: usize, words: usize, members: u32, parts: &'a mut Parts) -> Reader<'a> {
        Reader { parts, words, at, members, count: 0, callable: 0, bad_call: usize::MAX, bad_for: usize::MAX }
    }

    fn file(&mut self, levels: u32) -> Result<File, Refused> {
        let procedures = self.table();
        while self.callable < procedures {
            self.parts.procedures[self.callable] = self.four(levels)?;
            self.callable += 1;
        }
        let main = self.four(levels)?;
        Ok(File { procedures, main, count: self.count })
    }

    /// The count of procedures, if a table begins at word 1.
    fn table(&mut self) -> usize {
        if self.words < 2 || kind(self.parts.words[1]) != TABLE {
            return 0;
        }
        match payload(self.parts.words[1]) as usize {
            procedures @ 1..=MOST_PROCEDURES => {
                self.at = 2;
                procedures
            }
            _ => 0,
        }
    }

    fn four(&mut self, levels: u32) -> Result<Four, Refused> {
        let command = self.at;
        self.command(levels)?;
        let pre = self.at;
        self.set(levels)?;
        let post = self.at;
        self.set(levels)?;
        let evidence = self.at;
        self.evidence(FLOW, levels)?;
        Ok(Four { command, pre, post, evidence })
    }

    /// The word that is due: refusals 3 and 4.
    #[inline(always)]
    fn due(&mut self, levels: u32) -> Result<(usize, u32), Refused> {
        let place = self.at;
        if place >= self.words {
            return Err(refusal(3, self.words));
        }
        if levels == 0 {
            return Err(refusal(4, place));
        }
        self.at = place + 1;
        Ok((place, self.parts.words[place]))
    }

    #[inline(always)]
    fn done(&mut self, place: usize, identifiers: u64) -> Read {
        self.parts.ends[place] = self.at as u16;
        self.parts.identifiers[place] = identifiers;
        Ok(identifiers)
    }

    fn arithmetic(&mut self, levels: u32) -> Read {
        let (place, word) = self.due(levels)?;
        self.arithmetic_from(place, word, levels)
    }

    fn arithmetic_from(&mut self, place: usize, word: u32, levels: u32) -> Read {
        let identifiers = match (kind(word), payload(word)) {
            (CONSTANT, _) => 0,
            (SCALAR, p @ 0..=31) => 1 << p,
            (OPERATOR, 0..=2) => self.arithmetic(levels - 1)? | self.arithmetic(levels - 1)?,
            (SELECT, 0) => self.array(levels - 1)? | self.arithmetic(levels - 1)?,
            _ => return Err(refusal(5, place)),
        };
        self.done(place, identifiers)
    }

    fn boolean(&mut self, levels: u32) -> Read {
        let (place, word) = self.due(levels)?;
        self.boolean_from(place, word, levels)
    }

    fn boolean_from(&mut self, place: usize, word: u32, levels: u32) -> Read {
        self.parts.plain[place] = Plain::written(place);
        let identifiers = match (kind(word), payload(word)) {
            (COMPARISON, 0..=2) => self.arithmetic(levels - 1)? | self.arithmetic(levels - 1)?,
            (TRUTH, 0..=1) => 0,
            (AND | OR, 0) => {
                let both = self.boolean(levels - 1)? | self.boolean(levels - 1)?;
                self.parts.drop_in_pair(place);
                both
            }
            (NOT, 0) => {
                let one = self.boolean(levels - 1)?;
                self.parts.drop_in_not(place);
                one
            }
            _ => return Err(refusal(5, place)),
        };
        self.done(place, identifiers)
    }

    fn array(&mut self, levels: u32) -> Read {
        let (place, word) = self.due(levels)?;
        self.array_from(place, word, levels)
    }

    fn array_from(&mut self, place: usize, word: u32, levels: u32) -> Read {
        let identifiers = match (kind(word), payload(word)) {
            (ARRAY, p @ 0..=31) => 1 << (32 + p),
            (ZERO, 0) => 0,
            (UPDATE, 0) => {
                self.array(levels - 1)? | self.arithmetic(levels - 1)? | self.arithmetic(levels - 1)?
            }
            _ => return Err(refusal(5, place)),
        };
        self.done(place, identifiers)
    }

    fn expression(&mut self, levels: u32) -> Read {
        let (place, word) = self.due(levels)?;
        match kind(word) {
            COMPARISON..=NOT => self.boolean_from(place, word, levels),
            ARRAY..=UPDATE => self.array_from(place, word, levels),
            _ => self.arithmetic_from(place, word, levels),
        }
    }

    /// The identifiers are those that the command modifies.
    fn command(&mut self, levels: u32) -> Read {
        let (place, word) = self.due(levels)?;
        let below = levels - 1;
        let modified = match (kind(word), payload(word)) {
            (SKIP, 0) => 0,
            (SEQUENCE, 0) => self.command(below)? | self.command(below)?,
            (ASSERT, 0) => self.boolean(below).map(|_| 0)?,
            (ASSIGN, p @ 0..=31) => self.arithmetic(below).map(|_| 1 << p)?,
            (ASSIGN_ARRAY, p @ 0..=31) => self.array(below).map(|_| 1 << (32 + p))?,
            (IF, 0) => {
                self.boolean(below)?;
                self.command(below)? | self.command(below)?
            }
            (WHILE, 0) => {
                self.boolean(below)?;
                self.command(below)?
            }
            (FOR, p @ 0..=1023) => self.body(place, p % 32, p / 32, below)?,
            (CALL, p) => self.call(place, p as usize),
            _ => return Err(refusal(5, place)),
        };
        self.done(place, modified)
    }

    /// The body of a `for`: refusal 7 is kept for later.
    fn body(&mut self, place: usize, q: u32, m: u32, levels: u32) -> Read {
        let modified = self.command(levels)?;
        if q == m || modified & (1 << q | 1 << m) != 0 {
            self.bad_for = self.bad_for.min(place);
        }
        Ok(modified | 1 << q)
    }

    /// Refusal 16 is kept for later; a call that may not be is taken to modify nothing until then.
    fn call(&mut self, place: usize, procedure: usize) -> u64 {
        if procedure < self.callable {
            return self.parts.identifiers[self.parts.procedures[procedure].command];
        }
        self.bad_call = self.bad_call.min(place);
        0
    }

    fn set(&mut self, levels: u32) -> Read {
        let (place, word) = self.due(levels)?;
        if kind(word) != SET || payload(word) > self.members {
            return Err(refusal(5, place));
        }
        let mut identifiers = 0;
        for _ in 0..payload(word) {
            identifiers |= self.boolean(levels - 1)? | self.expression(levels - 1)?;
        }
        self.done(place, identifiers)
    }

    fn evidence(&mut self, wanted: u32, levels: u32) -> Read {
        let (place, word) = self.due(levels)?;
        let items = match items(wanted, payload(word)) {
            Some(items) if kind(word) == wanted => items,
            _ => return Err(refusal(5, place)),
        };
        self.count += 1;
        for item in items {
            match item {
                Item::Set => self.set(levels - 1)?,
                Item::Boolean => self.boolean(levels - 1)?,
                Item::Command => self.command(levels - 1)?,
                Item::Evidence(kind) => self.evidence(*kind, levels - 1)?,
            };
        }
        self.done(place, 0)
    }
}
