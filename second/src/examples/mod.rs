//! Examples: the certificates of the folder `examples/` that are made from trees, good and faulty, with their texts.
//!
//! Uses: layout, naive, generate, view.
//! For: `make_examples`, which writes that folder, and the tests.

pub mod example;
pub mod guard;
pub mod loops;
pub mod procedure;

/// All of them.
pub fn all() -> Vec<example::Example> {
    [guard::examples(), procedure::examples(), loops::examples()].into_iter().flatten().collect()
}
