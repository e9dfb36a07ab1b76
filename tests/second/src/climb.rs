//! How far an end climbs: request E5 of document 02.

use crate::session::Session;

impl Session {
    /// "the steps climbed: from that task, move to the creator as long as the task stood on has neither itself nor a
    /// descendant live; main is the top". `below` says of each place of an object whether a descendant of it is live,
    /// after the operation. Main has no creator, so there is a move to main and none from it. Whether a task is a finish
    /// task is not asked.
    pub fn steps_climbed(&self, from: u64, below: &[bool]) -> u64 {
        let (mut stands_on, mut steps) = (from, 0);
        while let Some(task) = self.task(stands_on) {
            let live = task.is_live() || below[stands_on as usize - 1];
            // The creator is the lower one, so this ends.
            let has_creator = task.creator >= 1 && task.creator < stands_on;
            if live || !has_creator {
                break;
            }
            stands_on = task.creator;
            steps += 1;
        }
        steps
    }
}
