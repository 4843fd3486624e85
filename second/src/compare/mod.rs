//! Compare: demand 3 by search, for the main program and for each procedure: runs from two stores compared; and what raised settings may
//! change (request [6]). The programs `compare`, `compare_runs` and `compare_calls`, which compare the check, the runner and the calls of
//! request [5] of three versions, are all in `src/bin`.
//!
//! Uses: layout, naive, generate.
//! For: `search`, `compare` and the tests.

pub mod pairs;
pub mod raised;
