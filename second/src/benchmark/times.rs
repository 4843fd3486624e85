//! Calls timed by turns in one process.

use std::hint::black_box;
use std::time::{Duration, Instant};

/// Each call is timed until this long has gone by for all of them, and at least so often.
const LONG: Duration = Duration::from_millis(400);
const OFTEN: u32 = 5;

/// The least nanoseconds of one call of each, separated by spaces.
pub fn best<const N: usize>(mut calls: [&mut dyn FnMut() -> u64; N]) -> String {
    let mut least = [Duration::MAX; N];
    let (start, mut rounds) = (Instant::now(), 0);
    while rounds < OFTEN || start.elapsed() < LONG {
        for (call, least) in calls.iter_mut().zip(&mut least) {
            let before = Instant::now();
            black_box(call());
            *least = before.elapsed().min(*least);
        }
        rounds += 1;
    }
    least.map(|d| d.as_nanos().to_string()).join(" ")
}
