//! Document 02, request [4]: constants by cases.

use second::fast;
use second::layout::settings::STANDARD;
use second::layout::words::{bytes_of, constant_of, pack, payload_of};
use second::naive::run::{run, ARRAY_VALUES, SCALARS};

/// The least and the greatest payload of each case, with their constants.
const ENDS: [(u32, i64); 4] = [(0, 0), (33_554_431, 33_554_431), (33_554_432, -33_554_432), (67_108_863, -1)];

#[test]
fn cases() {
    for (payload, constant) in ENDS {
        assert_eq!(constant_of(payload), constant);
    }
}

/// No answer changes: the cases of `layout` are document 01's two's complement, of 26 bits the highest taken off, and each constant has
/// its payload back.
#[test]
fn every_payload() {
    let weighed = |payload: u32| i64::from(payload % 33_554_432) - i64::from(payload / 33_554_432 * 33_554_432);
    assert!((0..67_108_864).all(|p| constant_of(p) == weighed(p) && payload_of(weighed(p)) == p));
}

/// What the naive runner and the fast one put into scalar 0.
fn assigned(payload: u32) -> (i64, i64) {
    let words = [(63, 6), (27, 0), (1, payload), (32, 0), (32, 0), (33, 10)].map(|(k, p)| pack(k, p));
    let bytes = bytes_of(&words);
    let (mut naive, mut fast) = (vec![7; SCALARS], vec![7; SCALARS]);
    let mut arrays = vec![0; ARRAY_VALUES];
    assert_eq!(run(&bytes, 1, &mut naive, &mut arrays, STANDARD).end_text(), "ended");
    fast::run(&bytes, 1, &mut fast, &mut arrays, fast::STANDARD, &mut fast::Work::new());
    (naive[0], fast[0])
}

#[test]
fn runs() {
    for (payload, constant) in ENDS {
        assert_eq!(assigned(payload), (constant, constant));
    }
}

/// Each bit of a payload alone, those below it, and all but that bit.
#[test]
fn runs_of_each_bit() {
    for bit in (0..26).map(|n| 1 << n) {
        for payload in [bit, bit - 1, 67_108_863 - bit] {
            let constant = constant_of(payload);
            assert_eq!(assigned(payload), (constant, constant), "payload {payload}");
        }
    }
}
