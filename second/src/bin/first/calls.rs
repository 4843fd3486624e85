//! The proved calls of request [5], under settings, where they are linked (feature `first`, see build.rs).

use second::layout::settings::Settings;

#[cfg(feature = "first")]
extern "C" {
    fn flow_check_masks(
        file: *const u8,
        count: usize,
        masks: *mut u64,
        n: usize,
        comparisons: usize,
        depth: usize,
        members: usize,
    ) -> u32;
    fn flow_put(
        file: *mut u8,
        count: usize,
        masks: *mut u64,
        n: usize,
        place: usize,
        command: *const u8,
        k: usize,
        comparisons: usize,
        depth: usize,
        members: usize,
    ) -> u32;
}

/// Number × 65,536 + place, or the count when accepted; none if nothing is linked.
#[cfg(feature = "first")]
pub fn check_with_masks(bytes: &[u8], masks: &mut [u64], settings: Settings) -> Option<u32> {
    let [comparisons, depth, members] = settings.numbers().map(|number| number as usize);
    let (numbers, n) = (masks.as_mut_ptr(), masks.len());
    // Two lent slices, the second changed in place.
    Some(unsafe { flow_check_masks(bytes.as_ptr(), bytes.len(), numbers, n, comparisons, depth, members) })
}

/// Number × 65,536 + place, or 0 when the command was put; none if nothing is linked.
#[cfg(feature = "first")]
pub fn put(bytes: &mut [u8], masks: &mut [u64], place: usize, new: &[u8], settings: Settings) -> Option<u32> {
    let [comparisons, depth, members] = settings.numbers().map(|number| number as usize);
    let (file, count) = (bytes.as_mut_ptr(), bytes.len());
    let (numbers, n) = (masks.as_mut_ptr(), masks.len());
    let (command, k) = (new.as_ptr(), new.len());
    // Three lent slices, the first two changed in place.
    Some(unsafe { flow_put(file, count, numbers, n, place, command, k, comparisons, depth, members) })
}

#[cfg(not(feature = "first"))]
pub fn check_with_masks(_: &[u8], _: &mut [u64], _: Settings) -> Option<u32> {
    None
}

#[cfg(not(feature = "first"))]
pub fn put(_: &mut [u8], _: &mut [u64], _: usize, _: &[u8], _: Settings) -> Option<u32> {
    None
}
