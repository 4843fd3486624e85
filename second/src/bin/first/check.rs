//! The proved check, where it is linked (feature `first`, see build.rs).

#[cfg(feature = "first")]
extern "C" {
    fn flow_check(ptr: *const u8, len: usize) -> u32;
}

/// Number × 65,536 + place, or the count when accepted; none if nothing is linked.
#[cfg(feature = "first")]
pub fn check(bytes: &[u8]) -> Option<u32> {
    // A lent slice of bytes, read only.
    Some(unsafe { flow_check(bytes.as_ptr(), bytes.len()) })
}

#[cfg(not(feature = "first"))]
pub fn check(_: &[u8]) -> Option<u32> {
    None
}
