//! Document 02, request [6]: what each call that reads a file is given, "the most comparisons (0 to 16), depth (1 to 256) and members
//! (0 to 128)".

use super::words::{refuse, Refusal};

#[derive(Clone, Copy, PartialEq, Eq, Debug)]
pub struct Settings {
    /// The most distinct comparisons of an implication.
    pub comparisons: u64,
    /// The depth of the deepest word.
    pub depth: u64,
    /// The most members of a set.
    pub members: u64,
}

/// "The old 10, 128 and 64", which the C call and `flowcheck` keep.
pub const STANDARD: Settings = Settings { comparisons: 10, depth: 128, members: 64 };

/// The lowest and the highest of each range.
pub const LOWEST: Settings = Settings { comparisons: 0, depth: 1, members: 0 };
pub const HIGHEST: Settings = Settings { comparisons: 16, depth: 256, members: 128 };

impl Settings {
    /// In the order of the request.
    pub fn numbers(self) -> [u64; 3] {
        [self.comparisons, self.depth, self.members]
    }

    pub fn of([comparisons, depth, members]: [u64; 3]) -> Settings {
        Settings { comparisons, depth, members }
    }

    /// Each is at most the other's.
    pub fn is_within(self, high: Settings) -> bool {
        self.numbers().iter().zip(high.numbers()).all(|(low, high)| *low <= high)
    }

    pub fn in_range(self) -> bool {
        LOWEST.is_within(self) && self.is_within(HIGHEST)
    }

    /// "19: a setting outside its range, before 1, place 0."
    pub fn tried(self) -> Result<(), Refusal> {
        if self.in_range() {
            Ok(())
        } else {
            refuse(19, 0)
        }
    }
}
