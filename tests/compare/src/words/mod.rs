//! Sessions of the second engine as words and back, by docs/LAYOUT.md.

mod numbers;
mod read;
mod write;

pub use read::{from_words, is_sound};
pub use write::{to_words, write_words};
