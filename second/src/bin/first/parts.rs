//! The proved calls for the parts of a file, where they are linked (feature `first`, see build.rs).

use second::layout::settings::Settings;

#[cfg(feature = "first")]
type Part = unsafe extern "C" fn(*const u8, usize, usize, usize, usize) -> u32;

#[cfg(feature = "first")]
extern "C" {
    fn flow_program(file: *const u8, count: usize, comparisons: usize, depth: usize, members: usize) -> u32;
    fn flow_precondition(file: *const u8, count: usize, comparisons: usize, depth: usize, members: usize) -> u32;
    fn flow_postcondition(file: *const u8, count: usize, comparisons: usize, depth: usize, members: usize) -> u32;
}

/// Of the program, the precondition and the postcondition: first place × 65,536 + the place past the last, or 0 when refused; none if
/// nothing is linked.
#[cfg(feature = "first")]
pub fn parts(bytes: &[u8], settings: Settings) -> Option<[u32; 3]> {
    let [comparisons, depth, members] = settings.numbers().map(|number| number as usize);
    let calls: [Part; 3] = [flow_program, flow_precondition, flow_postcondition];
    // A lent slice of bytes, read only.
    Some(calls.map(|call| unsafe { call(bytes.as_ptr(), bytes.len(), comparisons, depth, members) }))
}

#[cfg(not(feature = "first"))]
pub fn parts(_: &[u8], _: Settings) -> Option<[u32; 3]> {
    None
}
