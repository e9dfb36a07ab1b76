//! Descendants.

use crate::session::Session;

impl Session {
    /// For each place of an object, whether a descendant of it is a live task.
    ///
    /// "Descendants follow creators: the creator's handle is always the lower one", so one pass from the highest handle
    /// down meets every descendant before its creator.
    pub fn live_below(&self) -> Vec<bool> {
        let mut below = vec![false; self.objects.len()];
        for (handle, task) in self.tasks().rev() {
            let live = task.is_live() || below[handle as usize - 1];
            if live && task.creator >= 1 && task.creator < handle {
                below[task.creator as usize - 1] = true;
            }
        }
        below
    }
}
