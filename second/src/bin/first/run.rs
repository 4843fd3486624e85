//! The proved runner, where it is linked (feature `first`, see build.rs).

use second::layout::settings::Settings;

#[cfg(feature = "first")]
extern "C" {
    fn flow_run(
        file: *const u8,
        count: usize,
        scalars: *mut i64,
        n: usize,
        values: *mut i64,
        k: usize,
        budget: usize,
        comparisons: usize,
        depth: usize,
        members: usize,
    ) -> u64;
}

/// Steps × 2^32 + 0 or number × 65,536 + place; the two slices are the store. None if nothing is linked.
#[cfg(feature = "first")]
pub fn run(bytes: &[u8], budget: u64, scalars: &mut [i64], values: &mut [i64], settings: Settings) -> Option<u64> {
    let [comparisons, depth, members] = settings.numbers().map(|number| number as usize);
    let (x, n) = (scalars.as_mut_ptr(), scalars.len());
    let (h, k) = (values.as_mut_ptr(), values.len());
    let (file, count) = (bytes.as_ptr(), bytes.len());
    // Three lent slices, the last two changed in place.
    Some(unsafe { flow_run(file, count, x, n, h, k, budget as usize, comparisons, depth, members) })
}

#[cfg(not(feature = "first"))]
pub fn run(_: &[u8], _: u64, _: &mut [i64], _: &mut [i64], _: Settings) -> Option<u64> {
    None
}
