//! A second checker and machine, written from the pages in `docs/` alone, to hold the box against.
//!
//! It shares no code with the box. It is plain on purpose: an image is decoded once into `Vec`s, and each rule stands where the pages
//! have it.

pub mod boxes;
pub mod checker;
pub mod flow;
pub mod generate;
pub mod kinds;
pub mod layout;
pub mod machine;
pub mod naming;
pub mod printings;
pub mod leaks;
pub mod text;
pub mod trial;
pub mod words;

#[cfg(feature = "firmware")]
pub mod firmware;
