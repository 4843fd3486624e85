//! Fast: the check, the runner and the calls of request [5] again, plain and for speed, from document 01 and requests [3], [1], [2],
//! [4], [5] and [6]: what one writes where nothing has to be proved. Nothing is allocated or cleared: the caller lends the arrays. A part of
//! the file is its place among the words, a goal is such places, and each part's end and identifiers, and each boolean's plain form, are
//! worked out once, while it is read.
//!
//! Uses: nothing.
//! For: the benchmark compares the proved code with it; a third answer where the check, the runner and the calls are compared.

mod flow;
mod implication;
mod implies;
mod layout;
mod masks;
mod plain;
mod pre;
mod read;
mod run;
mod sets;
mod settings;

pub use masks::{check_with_masks, put};
pub use run::run;
pub use settings::{Settings, STANDARD};

use layout::{MOST_PROCEDURES, MOST_WORDS};
use plain::Plain;
use read::File;
use settings::Limits;

/// A refusal: number × 65,536 + place. As wide as what a part's reading gives, so that a result is handed back in registers.
type Refused = u64;

fn refusal(number: u32, place: usize) -> Refused {
    u64::from(number) << 16 | place as u64
}

/// The arrays that a caller lends, each as long as the longest file. What earlier calls left in them plays no part.
pub struct Work {
    parts: Parts,
    /// For an implication: the number of the comparison at a place.
    numbers: [u8; MOST_WORDS],
}

impl Work {
    pub const fn new() -> Work {
        let procedures = [Four { command: 0, pre: 0, post: 0, evidence: 0 }; MOST_PROCEDURES];
        let parts = Parts {
            words: [0; MOST_WORDS],
            ends: [0; MOST_WORDS],
            identifiers: [0; MOST_WORDS],
            plain: [Plain::NONE; MOST_WORDS],
            procedures,
        };
        Work { parts, numbers: [0; MOST_WORDS] }
    }
}

impl Default for Work {
    fn default() -> Work {
        Work::new()
    }
}

/// What is known of the file's words.
struct Parts {
    words: [u32; MOST_WORDS],
    /// The place past the part that starts here.
    ends: [u16; MOST_WORDS],
    /// Of an expression or a set: the identifiers in it. Of a command: those it modifies. Bit x is scalar x, bit 32 + a array a.
    identifiers: [u64; MOST_WORDS],
    /// Of a boolean: its plain form.
    plain: [Plain; MOST_WORDS],
    /// By table place.
    procedures: [Four; MOST_PROCEDURES],
}

/// The places of what a procedure and the main program each have.
#[derive(Clone, Copy)]
struct Four {
    command: usize,
    pre: usize,
    post: usize,
    evidence: usize,
}

impl Parts {
    fn end(&self, place: usize) -> usize {
        usize::from(self.ends[place])
    }

    fn kind(&self, place: usize) -> u32 {
        layout::kind(self.words[place])
    }

    fn payload(&self, place: usize) -> u32 {
        layout::payload(self.words[place])
    }

    /// What the call at a place calls.
    fn called(&self, call: usize) -> Four {
        self.procedures[self.payload(call) as usize]
    }

    /// "Compared by words."
    fn equal(&self, a: usize, b: usize) -> bool {
        self.words[a] == self.words[b] && self.same_words(a, self.end(a), b, self.end(b))
    }

    fn same_words(&self, a: usize, a_end: usize, b: usize, b_end: usize) -> bool {
        const FEW: usize = 8;
        let (left, right) = (&self.words[a..a_end], &self.words[b..b_end]);
        if left.len() != right.len() {
            return false;
        }
        if left.len() > FEW {
            return left == right;
        }
        // a call to compare memory costs more than a few words do
        left.iter().zip(right).all(|(x, y)| x == y)
    }

    /// If the words from `place` on start with those of `part`, the place past them.
    fn after(&self, place: usize, part: usize) -> Option<usize> {
        let words = &self.words[part..self.end(part)];
        let end = place + words.len();
        (self.words.get(place..end)? == words).then_some(end)
    }
}

/// The judge of a file that was read.
struct Judge<'a> {
    parts: &'a Parts,
    /// At a command's place, what it modifies: as reading found it, or the stored masks.
    modified: &'a [u64],
    numbers: &'a mut [u8; MOST_WORDS],
    /// The most comparisons of an implication.
    comparisons: usize,
}

/// A goal judged.
type Judged = Result<(), Refused>;

/// Refusal 8 at an evidence word whose condition fails.
fn need(condition: bool, place: usize) -> Judged {
    if condition {
        Ok(())
    } else {
        Err(refusal(8, place))
    }
}

/// The check on bytes: the count of evidence words if accepted, else number × 65,536 + place.
pub fn check(bytes: &[u8], work: &mut Work) -> u32 {
    check_settings(bytes, STANDARD, work)
}

/// The same under settings.
pub fn check_settings(bytes: &[u8], settings: Settings, work: &mut Work) -> u32 {
    match settings.limits().and_then(|limits| check_within(bytes, limits, work)) {
        Ok(count) => count,
        Err(refused) => refused as u32,
    }
}

fn check_within(bytes: &[u8], limits: Limits, work: &mut Work) -> Result<u32, Refused> {
    let file = read::read(bytes, limits, &mut work.parts)?;
    let Work { parts, numbers } = work;
    Judge { parts, modified: &parts.identifiers, numbers, comparisons: limits.comparisons }.file(&file)
}

impl Judge<'_> {
    /// The evidence of each procedure, then that of the main program.
    fn file(&mut self, file: &File) -> Result<u32, Refused> {
        let procedures = &self.parts.procedures[..file.procedures];
        let mut all = procedures.iter().chain(std::iter::once(&file.main));
        all.try_for_each(|part| self.flow(part.pre, part.command, part.post, part.evidence))?;
        Ok(file.count)
    }
}
