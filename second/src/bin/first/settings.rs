//! The proved check under settings, where it is linked (feature `first`, see build.rs).

use second::layout::settings::Settings;

#[cfg(feature = "first")]
extern "C" {
    fn flow_check_settings(file: *const u8, count: usize, comparisons: usize, depth: usize, members: usize) -> u32;
}

/// Number × 65,536 + place, or the count when accepted; none if nothing is linked.
#[cfg(feature = "first")]
pub fn check_settings(bytes: &[u8], settings: Settings) -> Option<u32> {
    let [comparisons, depth, members] = settings.numbers().map(|number| number as usize);
    // A lent slice of bytes, read only.
    Some(unsafe { flow_check_settings(bytes.as_ptr(), bytes.len(), comparisons, depth, members) })
}

#[cfg(not(feature = "first"))]
pub fn check_settings(_: &[u8], _: Settings) -> Option<u32> {
    None
}
