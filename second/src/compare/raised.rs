//! Request [6] by trial: "Raising settings within these ranges never turns an acceptance into a refusal, and changes no refusal of a
//! judged file but 4, 9 and the 5 of a set's count."

use crate::layout::settings::Settings;
use crate::layout::words::{pack, take_apart};

/// Whether an answer may be another under raised settings. `check` is that which gave the answer, packed as for C.
pub fn may_change(answer: u32, bytes: &[u8], settings: Settings, check: impl Fn(&[u8], Settings) -> u32) -> bool {
    match answer / 65_536 {
        4 | 9 => true,
        5 => {
            let place = answer as usize % 65_536;
            has_more_members(bytes, place, settings) && check(&without_members(bytes, place), settings) != answer
        }
        _ => false,
    }
}

fn has_more_members(bytes: &[u8], place: usize, settings: Settings) -> bool {
    let four = &bytes[4 * place..4 * place + 4];
    let word = take_apart(place, u32::from_le_bytes([four[0], four[1], four[2], four[3]]));
    word.kind == 32 && u64::from(word.payload) > settings.members
}

/// The file with an empty set at a place: where a set is due, it is no 5 there.
fn without_members(bytes: &[u8], place: usize) -> Vec<u8> {
    let mut other = bytes.to_vec();
    other[4 * place..4 * place + 4].copy_from_slice(&pack(32, 0).to_le_bytes());
    other
}
