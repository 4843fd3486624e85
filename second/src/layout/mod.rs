//! Layout: words and trees of document 01 and of request [3] (procedures), trees written as words, and the settings of request [6]. Nothing
//! is read or judged here.
//!
//! Uses: nothing.
//! For: every part but `fast`, which has its own layout.

pub mod settings;
pub mod syntax;
pub mod words;
pub mod write;
