//! Satisfying, firing and delivering.

use crate::link::{Link, LinkState};
use crate::object::*;
use crate::session::Session;

impl Session {
    /// Satisfy a slot of a task or an event that can take it.
    pub(super) fn satisfy(&mut self, destination: u64, slot: u64, payload: u64) {
        if let Some(task) = self.task_mut(destination) {
            let mode = task.slots[slot as usize].mode;
            task.slots[slot as usize] = Slot { mode, satisfied: true, payload };
            if task.state == TaskState::Waiting && task.all_satisfied() {
                task.state = TaskState::Resolved;
            }
        } else {
            self.satisfy_event(destination, slot, payload);
        }
    }

    /// "A second satisfaction of idempotent is accepted and does nothing. A latch [..] fires when a satisfaction leaves
    /// 0; its payload is 0."
    fn satisfy_event(&mut self, handle: u64, slot: u64, payload: u64) {
        let Some(event) = self.event_mut(handle) else { return };
        if event.state != EventState::Open {
            return;
        }
        if event.kind != EventType::Latch {
            self.fire(handle, payload);
            return;
        }
        event.tally = event.tally_after(slot);
        if event.tally == 0 {
            self.fire(handle, 0);
        }
    }

    /// "Firing makes the event's open links ready."
    pub(super) fn fire(&mut self, handle: u64, payload: u64) {
        if let Some(event) = self.event_mut(handle) {
            event.state = EventState::Fired;
            event.payload = payload;
        }
        self.turn_open_links(handle, LinkState::Ready);
    }

    pub(super) fn turn_open_links(&mut self, source: u64, state: LinkState) {
        for link in self.links.iter_mut() {
            if link.source == source && link.state == LinkState::Open {
                link.state = state;
            }
        }
    }

    /// "Deliver satisfies the destination with the source's payload; the link is then delivered. If the destination is
    /// gone, or a satisfied sticky, or a latch that would leave its range, nothing else happens and the session's
    /// dropped count rises by 1." A dropped one counts for a counted source too, as the link is delivered.
    pub(super) fn deliver(&mut self, number: u64) {
        let Some(link) = self.link_mut(number) else { return };
        link.state = LinkState::Delivered;
        let Link { source, destination, slot, .. } = *link;
        let payload = self.event(source).map_or(0, |event| event.payload);
        if self.would_drop(destination, slot) {
            self.dropped += 1;
        } else {
            self.satisfy(destination, slot, payload);
        }
        self.go_if_served(source);
    }

    /// A counted event "is destroyed when its count of links has been delivered". It has fired, and the other fields of
    /// its record stay.
    fn go_if_served(&mut self, handle: u64) {
        let Some(event) = self.event(handle) else { return };
        if event.kind == EventType::Counted && self.delivered_from(handle) == event.count {
            self.destroy_event(handle);
        }
    }

    fn would_drop(&self, destination: u64, slot: u64) -> bool {
        match self.object(destination) {
            Some(Object::Task(task)) => !task.is_live(),
            Some(Object::Event(event)) => event.is_gone() || event.has_taken_one() || event.leaves_range(slot),
            _ => true,
        }
    }
}
