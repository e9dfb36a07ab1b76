//! What a conversion says of numbers that no sound session can hold.

/// "The session is not sound": a number that has no reading as a state, a mode or a type.
#[derive(Clone, Copy, Debug, PartialEq, Eq)]
pub struct Unsound;
