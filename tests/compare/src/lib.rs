//! The proved engine beside the second one.
//!
//! `library` calls the proved engine through its C functions, `layout` reads where things stand in a session's memory,
//! `words` turns a session of the second engine into such memory and back, `pair` carries out calls on both, and
//! `judge` has both look whether words are sound. `runs` has the second engine run a sheet over lent memory, `reports`
//! calls the library for a class report until nothing is left, `damage` changes words at random, and `stages` makes
//! sessions of a wanted size.

pub mod damage;
pub mod judge;
pub mod layout;
pub mod library;
pub mod pair;
pub mod reports;
pub mod runs;
pub mod stages;
pub mod words;

pub use library::Memory;
pub use pair::Pair;
