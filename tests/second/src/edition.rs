//! The editions of sheets, and the codes that each knows. A single call has none and takes every code.

use crate::operation::field_count;

/// "Sheets whose first number is 2 may use operation 13".
#[derive(Clone, Copy, Debug, PartialEq, Eq)]
pub enum Edition {
    First,
    Second,
}

impl TryFrom<u64> for Edition {
    /// The refusal.
    type Error = u32;

    /// "Check 5 now turns down a first number other than 1 or 2."
    fn try_from(number: u64) -> Result<Edition, u32> {
        match number {
            1 => Ok(Edition::First),
            2 => Ok(Edition::Second),
            _ => Err(5),
        }
    }
}

impl Edition {
    /// The first number of its sheets.
    pub fn number(self) -> u64 {
        match self {
            Edition::First => 1,
            Edition::Second => 2,
        }
    }

    /// Whether its sheets may use an operation of that code.
    fn knows(self, code: u64) -> bool {
        match self {
            Edition::First => (1..=12).contains(&code),
            Edition::Second => (1..=13).contains(&code),
        }
    }

    /// How many fields a record of that code has; `None` if the edition does not know the code: "in edition 1 reading
    /// or writing it gives 6".
    pub fn field_count(self, code: u64) -> Option<usize> {
        field_count(code).filter(|_| self.knows(code))
    }
}
