//! Request [5], under the settings of request [6]: the check that stores masks and asks them, and the workbench call. Reading leaves what
//! each command modifies, so the masks are stored in one pass over the words. The workbench call reads the file and then only the new
//! command, where it stands; what the others modify is worked out again from part to part.

use super::layout::*;
use super::read::{read_command, read_parts, read_words, File};
use super::settings::{Limits, Settings};
use super::{refusal, Four, Judge, Parts, Refused, Work};

/// Kinds of commands, and of those that the workbench call takes.
fn is_command(kind: u32) -> bool {
    matches!(kind, SKIP..=FOR | CALL)
}

fn is_simple(kind: u32) -> bool {
    matches!(kind, SKIP | ASSERT | ASSIGN | ASSIGN_ARRAY)
}

/// Refusals 1, 2, 17, and then the others of reading.
fn read_with_masks(bytes: &[u8], lent: usize, limits: Limits, parts: &mut Parts) -> Result<File, Refused> {
    let words = read_words(bytes, parts)?;
    if lent < words {
        return Err(refusal(17, 0));
    }
    read_parts(words, limits, parts)
}

/// As `check_settings`, with a mask stored for each word of a file that is read.
pub fn check_with_masks(bytes: &[u8], masks: &mut [u64], settings: Settings, work: &mut Work) -> u32 {
    match settings.limits().and_then(|limits| check_within(bytes, masks, limits, work)) {
        Ok(count) => count,
        Err(refused) => refused as u32,
    }
}

fn check_within(bytes: &[u8], masks: &mut [u64], limits: Limits, work: &mut Work) -> Result<u32, Refused> {
    let file = read_with_masks(bytes, masks.len(), limits, &mut work.parts)?;
    let Work { parts, numbers } = work;
    parts.store(&mut masks[..bytes.len() / 4]);
    Judge { parts, modified: masks, numbers, comparisons: limits.comparisons }.file(&file)
}

/// The workbench call: 0 if the command was put, else number × 65,536 + place.
pub fn put(bytes: &mut [u8], masks: &mut [u64], place: usize, new: &[u8], settings: Settings, work: &mut Work) -> u32 {
    let parts = &mut work.parts;
    match settings.limits().and_then(|limits| put_within(bytes, masks, place, new, limits, parts)) {
        Ok(()) => 0,
        Err(refused) => refused as u32,
    }
}

fn put_within(
    bytes: &mut [u8],
    masks: &mut [u64],
    place: usize,
    new: &[u8],
    limits: Limits,
    parts: &mut Parts,
) -> Result<(), Refused> {
    let words = bytes.len() / 4;
    let file = read_with_masks(bytes, masks.len(), limits, parts)?;
    if place >= words || !parts.replace(&file, place, new, limits.depth) {
        return Err(refusal(18, 0));
    }
    bytes[4 * place..][..new.len()].copy_from_slice(new);
    parts.store(&mut masks[..words]);
    Ok(())
}

impl Parts {
    /// A word of a command's kind is a command wherever it stands in a file that was read.
    fn store(&self, masks: &mut [u64]) {
        for (place, mask) in masks.iter_mut().enumerate() {
            *mask = if is_command(self.kind(place)) { self.identifiers[place] } else { 0 };
        }
    }

    /// Puts the new words and what is known of them in the place of a simple command; false as soon as this may not be.
    fn replace(&mut self, file: &File, place: usize, new: &[u8], depth: u32) -> bool {
        let end = self.end(place);
        if !is_simple(self.kind(place)) || new.len() != 4 * (end - place) {
            return false;
        }
        let (levels, modified) = (depth - self.around(file, place), self.identifiers[place]);
        for (word, four) in self.words[place..end].iter_mut().zip(new.chunks_exact(4)) {
            *word = u32::from_le_bytes([four[0], four[1], four[2], four[3]]);
        }
        is_simple(self.kind(place))
            && read_command(place, end, levels, self)
            && (self.identifiers[place] == modified || self.renew(file))
    }

    /// The count of the parts around a place; words 0 and 62:k are no parts.
    fn around(&self, file: &File, place: usize) -> u32 {
        let first = if file.procedures > 0 { 2 } else { 1 };
        self.ends[first..place].iter().filter(|end| usize::from(**end) > place).count() as u32
    }

    /// Works out again what each command modifies: procedures in table order, since a call goes to one before it, and of each the last
    /// word first, since a command goes before those within it. False if refusal 7 is now true of a `for`.
    fn renew(&mut self, file: &File) -> bool {
        (0..file.procedures).all(|p| self.renew_four(self.procedures[p])) && self.renew_four(file.main)
    }

    fn renew_four(&mut self, four: Four) -> bool {
        for place in (four.command..self.end(four.evidence)).rev() {
            match self.modified_at(place) {
                Some(modified) => self.identifiers[place] = modified,
                None => return false,
            }
        }
        true
    }

    /// What the command at a place modifies, by what is known of those within it; none for a `for` that refusal 7 is true of. What is
    /// known of any other word stays.
    fn modified_at(&self, place: usize) -> Option<u64> {
        let (first, of) = (place + 1, &self.identifiers);
        Some(match self.kind(place) {
            SEQUENCE => of[first] | of[self.end(first)],
            IF => {
                let then = self.end(first);
                of[then] | of[self.end(then)]
            }
            WHILE => of[self.end(first)],
            FOR => {
                let (q, m) = (1 << (self.payload(place) % 32), 1 << (self.payload(place) / 32));
                if of[first] & (q | m) != 0 {
                    return None;
                }
                of[first] | q
            }
            CALL => of[self.called(place).command],
            _ => of[place],
        })
    }
}
