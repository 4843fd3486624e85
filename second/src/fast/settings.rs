//! Request [6]: the settings of a call, and refusal 19.

use super::{refusal, Refused};

#[derive(Clone, Copy, PartialEq, Eq, Debug)]
pub struct Settings {
    pub comparisons: u64,
    pub depth: u64,
    pub members: u64,
}

/// Those of the calls that are given none.
pub const STANDARD: Settings = Settings { comparisons: 10, depth: 128, members: 64 };

/// The most comparisons that can be set.
pub const MOST_COMPARISONS: usize = 16;

/// In the order of the request.
impl From<[u64; 3]> for Settings {
    fn from([comparisons, depth, members]: [u64; 3]) -> Settings {
        Settings { comparisons, depth, members }
    }
}

/// Settings within their ranges.
#[derive(Clone, Copy)]
pub struct Limits {
    pub comparisons: usize,
    pub depth: u32,
    pub members: u32,
}

impl Settings {
    /// Refusal 19 where one is outside its range.
    pub fn limits(self) -> Result<Limits, Refused> {
        let Settings { comparisons, depth, members } = self;
        if comparisons > MOST_COMPARISONS as u64 || !(1..=256).contains(&depth) || members > 128 {
            return Err(refusal(19, 0));
        }
        Ok(Limits { comparisons: comparisons as usize, depth: depth as u32, members: members as u32 })
    }
}
