//! Holds of blocks by tasks.

use crate::mode::Mode;

/// Why a task holds a block: it came in a pre-slot, or the task made it. A task may hold one block by several of its
/// slots, each by its own mark (reading 9).
#[derive(Clone, Copy, Debug, PartialEq, Eq)]
pub enum Place {
    Slot(u64),
    Made,
}

#[derive(Clone, Copy, Debug, PartialEq, Eq)]
pub struct Hold {
    pub task: u64,
    pub block: u64,
    pub mode: Mode,
    pub place: Place,
}

impl Hold {
    /// "A task never conflicts with itself."
    pub fn conflicts(&self, other: &Hold) -> bool {
        self.task != other.task && self.block == other.block && self.mode.conflicts(other.mode)
    }
}
