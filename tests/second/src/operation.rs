//! Operations as numbers, and their answers.

/// A code and its fields; fields past those of the code are not looked at.
#[derive(Clone, Copy, Debug, PartialEq, Eq)]
pub struct Operation {
    pub code: u64,
    pub fields: [u64; MAX_FIELDS],
}

/// The most fields that an operation has.
pub const MAX_FIELDS: usize = 5;

/// "A refusal returns its number and 0"; an accepted call 0 and the handle or link made, or 0.
#[derive(Clone, Copy, Debug, PartialEq, Eq)]
pub struct Answer {
    pub refused: u32,
    /// For an end and for destroying a task, which make nothing, the steps climbed.
    pub made: u64,
}

/// How many fields an operation has; `None` for an unknown code. A record's edition may know fewer codes.
pub fn field_count(code: u64) -> Option<usize> {
    match code {
        1 | 3 | 4 | 7 | 8 | 12 | 13 => Some(2),
        2 | 5 => Some(5),
        6 => Some(4),
        9..=11 => Some(1),
        _ => None,
    }
}

impl Operation {
    /// An operation with the fields given, the rest zero.
    pub fn new(code: u64, given: &[u64]) -> Operation {
        let mut fields = [0; MAX_FIELDS];
        fields[..given.len()].copy_from_slice(given);
        Operation { code, fields }
    }

    /// The fields that the code has; all of them for an unknown code.
    pub fn known_fields(&self) -> &[u64] {
        &self.fields[..field_count(self.code).unwrap_or(MAX_FIELDS)]
    }
}
