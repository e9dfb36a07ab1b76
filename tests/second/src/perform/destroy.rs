//! Destroying objects.

use crate::link::LinkState;
use crate::object::*;
use crate::session::Session;

impl Session {
    /// "The other fields of a destroyed record stay." The steps climbed, 0 for anything but a task.
    pub(super) fn destroy(&mut self, caller: u64, handle: u64) -> u64 {
        match self.object_mut(handle) {
            Some(Object::Task(_)) => return self.destroy_task(handle),
            Some(Object::Template(template)) => template.destroyed = true,
            Some(Object::Event(_)) => self.destroy_event(handle),
            Some(Object::Block(_)) => self.destroy_block(caller, handle),
            None => (),
        }
        0
    }

    /// "Destroying a task also destroys its output event." The steps climbed: at least one, as a task that waits or is
    /// resolved has made no task, and it is not main, which runs before there is any caller.
    fn destroy_task(&mut self, handle: u64) -> u64 {
        self.set_state(handle, TaskState::Destroyed);
        let output = self.task(handle).map_or(0, |task| task.output);
        self.destroy_event(output);
        self.leave(handle)
    }

    /// "Destroying an open event cuts its open links."
    pub(super) fn destroy_event(&mut self, handle: u64) {
        if let Some(event) = self.event_mut(handle) {
            event.state = EventState::Destroyed { had_fired: event.has_fired() };
            self.turn_open_links(handle, LinkState::Cut);
        }
    }

    /// "Destroying a block first ends the caller's holds." It is doomed as long as others hold it.
    fn destroy_block(&mut self, caller: u64, handle: u64) {
        self.end_holds(|hold| hold.task == caller && hold.block == handle);
        let state = if self.is_held(handle) { BlockState::Doomed } else { BlockState::Destroyed };
        if let Some(Object::Block(block)) = self.object_mut(handle) {
            block.state = state;
        }
    }
}
