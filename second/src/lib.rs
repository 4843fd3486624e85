//! Document 01 ("Flow certificates: language, layout and judging") and document 02's requests [3] (procedures), [1] (what a test of the
//! runner works out), [2] (plain antecedents), [4] (constants by cases), [5] (stored modified sets) and [6] (limits as settings) with
//! nothing proved, to compare the proved code with.
//! In parts, each a folder: its `mod.rs` says what it is, which other parts it uses and what it is for. A part uses only
//! parts above it; `tests/parts.rs` looks. README.md has the map, with the programs of `src/bin`.

pub mod layout;

pub mod naive;

pub mod fast;

pub mod tool;

pub mod generate;

pub mod view;

pub mod examples;

pub mod compare;

pub mod benchmark;
