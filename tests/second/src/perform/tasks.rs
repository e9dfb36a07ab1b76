//! Granting and ending tasks, and the ends of their holds.

use crate::hold::Hold;
use crate::object::*;
use crate::session::Session;

impl Session {
    pub(super) fn grant(&mut self, task: u64) {
        let wanted = self.wanted_holds(task);
        self.holds.extend(wanted);
        self.set_state(task, TaskState::Granted);
    }

    pub(super) fn set_state(&mut self, handle: u64, state: TaskState) {
        if let Some(task) = self.task_mut(handle) {
            task.state = state;
        }
    }

    /// "End drops all holds. A plain task's output event fires with the returned block." The steps climbed.
    pub(super) fn end(&mut self, handle: u64, block: u64) -> u64 {
        self.end_holds(|hold| hold.task == handle);
        self.set_state(handle, TaskState::Ended);
        let plain = self.task(handle).filter(|task| !task.finish);
        if let Some(output) = plain.map(|task| task.output).filter(|output| *output != 0) {
            self.fire(output, block);
        }
        self.leave(handle)
    }

    /// What comes of a task that has ended or was destroyed, with its ancestors: finish tasks' events fire, and "For end
    /// and for destroying a task, the third number on the line becomes the steps climbed". Both ask for live descendants
    /// after the operation, which are looked up once; events that fire change no task.
    pub(super) fn leave(&mut self, handle: u64) -> u64 {
        let below = self.live_below();
        self.fire_finished(handle, &below);
        self.steps_climbed(handle, &below)
    }

    /// "A finish task's fires with 0, in the operation (an end, or the destroying of a task) after which the task is
    /// ended and no descendant is live; one operation may fire several." Only the task that ended or went and its
    /// ancestors can have come to that.
    fn fire_finished(&mut self, last: u64, below: &[bool]) {
        let mut handle = last;
        while let Some(task) = self.task(handle) {
            let (creator, output) = (task.creator, task.output);
            let done = task.finish && task.state == TaskState::Ended && !below[handle as usize - 1];
            if done && self.event(output).is_some_and(|event| event.state == EventState::Open) {
                self.fire(output, 0);
            }
            // The creator is the lower one, so this ends.
            handle = if creator < handle { creator } else { 0 };
        }
    }

    /// End the holds chosen; a doomed block goes with its last hold.
    pub(super) fn end_holds(&mut self, ends: impl Fn(&Hold) -> bool) {
        let (ended, kept): (Vec<Hold>, Vec<Hold>) = self.holds.drain(..).partition(|hold| ends(hold));
        self.holds = kept;
        for hold in ended {
            let held = self.is_held(hold.block);
            if let Some(Object::Block(block)) = self.object_mut(hold.block) {
                if block.state == BlockState::Doomed && !held {
                    block.state = BlockState::Destroyed;
                }
            }
        }
    }
}
