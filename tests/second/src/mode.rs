//! Access modes and their conflicts.

use crate::unsound::Unsound;

/// "Modes: 1 RO, 2 RW, 3 EW, 4 CONST."
#[derive(Clone, Copy, Debug, PartialEq, Eq)]
pub enum Mode {
    Ro,
    Rw,
    Ew,
    Const,
}

impl TryFrom<u64> for Mode {
    type Error = Unsound;

    fn try_from(number: u64) -> Result<Mode, Unsound> {
        match number {
            1 => Ok(Mode::Ro),
            2 => Ok(Mode::Rw),
            3 => Ok(Mode::Ew),
            4 => Ok(Mode::Const),
            _ => Err(Unsound),
        }
    }
}

impl Mode {
    /// "Holds by different tasks conflict in these pairs: RW with EW, EW with EW, CONST with RW, CONST with EW."
    pub fn conflicts(self, other: Mode) -> bool {
        use Mode::*;
        matches!((self, other), (Rw, Ew) | (Ew, Rw) | (Ew, Ew) | (Const, Rw) | (Rw, Const) | (Const, Ew) | (Ew, Const))
    }
}
