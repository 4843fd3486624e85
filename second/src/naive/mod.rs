//! Naive: the second implementation, of the check and of the runner, over trees, each sentence of document 01 and of requests [3]
//! (procedures), [1] (what a test of the runner works out), [2] (plain antecedents), [4] (constants by cases), [5] (stored
//! modified sets) and [6] (limits as settings) as it stands. It was written from these alone and shares no code with the proved crates nor
//! with `fast`. Each call that reads a file is given settings; only `judge::check` is not, as the C call that it is compared with.
//!
//! Uses: layout.
//! For: what the proved code and `fast` are compared with; the generator, the viewers and the examples stand on it.

// Refusals 19, 1 to 7, and 16.
pub mod commands;
pub mod read;

// The judge, refusals 8 and 9.
pub mod implies;
pub mod judge;
pub mod modified;
pub mod plain;
pub mod replace;
pub mod sets;

// Stored masks and the workbench call, refusals 17 and 18.
pub mod masks;

// The runner, refusals 10 to 15.
pub mod run;

// Runs without bounds, as "Language" means them.
pub mod big;
pub mod unbounded;
