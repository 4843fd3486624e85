//! What each command of a file modifies, as its stored mask says (request [5]): a line to each command word.

use super::show::Names;
use super::{headline, line, plain, walk};
use crate::layout::settings::Settings;
use crate::layout::words::words_of;
use crate::naive::commands::all_commands;
use crate::naive::masks::masks_of;
use crate::naive::read::read;

/// The identifiers of a mask.
fn modified(names: &Names, mask: u64) -> String {
    let has = |bit: &u32| mask >> bit & 1 == 1;
    let scalars = (0..32).filter(has).map(|x| names.scalar(x));
    let arrays = (32..64).filter(has).map(|bit| names.array(bit - 32));
    let all: Vec<String> = scalars.chain(arrays).collect();
    if all.is_empty() {
        return "modifies nothing".to_string();
    }
    format!("modifies {}", all.join(" "))
}

/// The answer, then the command words if the file is read, the carried commands' too: refusals 8 and 9 leave the masks stored.
pub fn view_masks(bytes: &[u8], names: &Names, settings: Settings) -> String {
    let mut out = headline(bytes, settings);
    let (Ok(words), Ok(file)) = (words_of(bytes), read(bytes, settings)) else { return out };
    let (masks, walk) = (masks_of(&file, words.len()), walk(&words, settings));
    for command in all_commands(&file) {
        let place = command.place;
        let word = plain(place, words[place]);
        out.push_str(&line(false, place, walk.shown[place].depth, &word, &modified(names, masks[place])));
    }
    out
}
