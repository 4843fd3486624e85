//! Benchmark: files and programs that are dear to check and to run, under the old settings and under the highest, and calls timed by turns.
//!
//! Uses: layout.
//! For: `bench`, `bench_check`, `bench_calls` and `bench_run`; the tests try `fast` on these files.

pub mod highest;
pub mod programs;
pub mod times;
pub mod worst;
