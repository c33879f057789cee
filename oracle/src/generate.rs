//! Images to try boxes with, from a seed: accepted ones, changes of them, and random words.

mod accepted;
mod every;
mod large;
mod mutants;
mod random;
mod refused;

pub use accepted::{accepted, careless, well_typed, Size};
pub use every::every_instruction;
pub use large::large_image;
pub use mutants::{mutant, one_field_changes, random_words};
pub use random::Random;
pub use refused::refused_by;
