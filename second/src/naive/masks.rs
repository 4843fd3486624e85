//! Request [5], stored modified sets: the masks of a file's words, the check that stores them, and the workbench call. Both are given
//! the settings of request [6].

use super::commands::all_commands;
use super::judge::{judge, Answer};
use super::modified::{modified_by, Identifiers};
use super::read::{counted_words, read, read_command};
use crate::layout::settings::Settings;
use crate::layout::syntax::*;
use crate::layout::words::{refuse, Refusal};
use crate::layout::write;

/// "Bit i scalar i, bit 32 + i array i."
fn mask_of(modified: &Identifiers) -> u64 {
    let mut mask = 0;
    for x in modified.all_scalars() {
        mask |= 1 << x;
    }
    for h in modified.all_arrays() {
        mask |= 1 << (32 + h);
    }
    mask
}

/// "At each command word the mask of what it modifies (..) and 0 at other words", for a file of so many words.
pub fn masks_of(file: &File, words: usize) -> Vec<u64> {
    let mut masks = vec![0; words];
    for command in all_commands(file) {
        masks[command.place] = mask_of(&modified_by(command, &file.procedures));
    }
    masks
}

/// "17: fewer numbers than words, after 2"; the other refusals of reading.
fn read_with_masks(bytes: &[u8], lent: usize, settings: Settings) -> Result<File, Refusal> {
    let words = counted_words(bytes, settings)?;
    if lent < words.len() {
        return refuse(17, 0);
    }
    read(bytes, settings)
}

/// "Numbers past these stay."
fn store(file: &File, bytes: &[u8], masks: &mut [u64]) {
    let words = bytes.len() / 4;
    masks[..words].copy_from_slice(&masks_of(file, words));
}

/// The check with masks: "judging reads first, so 8 and 9 leave the masks stored".
pub fn check_with_masks(bytes: &[u8], masks: &mut [u64], settings: Settings) -> Answer {
    match read_with_masks(bytes, masks.len(), settings) {
        Err(refusal) => Answer::Refused(refusal),
        Ok(file) => {
            store(&file, bytes, masks);
            judge(&file, settings)
        }
    }
}

/// "Skip, assert or assignment": the commands that the workbench call takes.
pub fn is_simple(command: &Command) -> bool {
    matches!(command.form, Form::Skip | Form::Assert(_) | Form::AssignScalar(..) | Form::AssignArray(..))
}

/// The words of a command.
pub fn words_of_command(command: &Command) -> Vec<u32> {
    let mut words = Vec::new();
    write::command(command, &mut words);
    words
}

/// The workbench call: "puts another skip, assert or assignment of equal length in the place of one such command".
pub fn put(bytes: &mut [u8], masks: &mut [u64], place: usize, new: &[u8], settings: Settings) -> Result<(), Refusal> {
    let file = read_with_masks(bytes, masks.len(), settings)?;
    let Some((changed, file)) = changed(&file, bytes, place, new, settings) else { return refuse(18, 0) };
    bytes.copy_from_slice(&changed);
    store(&file, bytes, masks);
    Ok(())
}

/// The changed bytes and the file that they are; none where "the place or the new command isn't as described, or the file so changed
/// would not be read".
fn changed(file: &File, bytes: &[u8], place: usize, new: &[u8], settings: Settings) -> Option<(Vec<u8>, File)> {
    let old = all_commands(file).into_iter().find(|command| command.place == place && is_simple(command))?;
    let command = read_command(new, settings).filter(is_simple)?;
    if words_of_command(old).len() != words_of_command(&command).len() {
        return None;
    }
    let bytes = with_words(bytes, place, new);
    let file = read(&bytes, settings).ok()?;
    Some((bytes, file))
}

/// The bytes of a file with these from a place on, which it has room for.
pub fn with_words(bytes: &[u8], place: usize, new: &[u8]) -> Vec<u8> {
    let mut changed = bytes.to_vec();
    changed[4 * place..4 * place + new.len()].copy_from_slice(new);
    changed
}
