//! Calls about counted events, which lists of edition 2 have beside the others.

use super::draw::Wanted;
use super::Steer;
use crate::edition::Edition;
use crate::link::{Link, LinkState};
use crate::object::{Event, EventState, EventType, Object};
use crate::operation::Operation;
use crate::session::Session;

fn counted(object: &Object) -> Option<&Event> {
    match object {
        Object::Event(event) if event.kind == EventType::Counted => Some(event),
        _ => None,
    }
}

fn is_there(_: &Session, _: u64, object: &Object) -> bool {
    counted(object).is_some_and(|event| !event.is_gone())
}

fn is_gone(_: &Session, _: u64, object: &Object) -> bool {
    counted(object).is_some_and(|event| event.is_gone())
}

fn is_open(_: &Session, _: u64, object: &Object) -> bool {
    counted(object).is_some_and(|event| event.state == EventState::Open)
}

fn has_fired(_: &Session, _: u64, object: &Object) -> bool {
    counted(object).is_some_and(|event| event.state == EventState::Fired)
}

/// Takes one more link.
fn has_room(session: &Session, handle: u64, object: &Object) -> bool {
    counted(object).is_some_and(|event| !event.is_gone() && session.links_from(handle) < event.count)
}

/// Has its count of links, for refusal 24.
fn is_used_up(session: &Session, handle: u64, object: &Object) -> bool {
    is_there(session, handle, object) && !has_room(session, handle, object)
}

fn is_served(session: &Session, link: &Link) -> bool {
    link.state == LinkState::Ready && session.object(link.source).is_some_and(|source| counted(source).is_some())
}

impl Steer {
    pub(super) fn has_counted(&self) -> bool {
        self.edition == Edition::Second
    }

    /// The fields of operation 13: counts that are soon used up mostly, and the most there can be.
    pub(super) fn draw_maker(&mut self) -> Vec<u64> {
        let any = 1 + self.random.below(16);
        vec![self.caller(), self.random.among(&[1, 1, 2, 2, 3, 3, 16, any])]
    }

    /// A call that makes a counted event, links from it and to it, or makes it fire, serve or go.
    pub(super) fn draw_counted(&mut self) -> Operation {
        match self.random.below(20) {
            0..=2 if !self.is_ahead() => self.draw(13),
            0..=8 => self.draw_use(),
            9..=10 => self.draw_feed(is_there),
            11..=13 => self.draw_feed(is_open),
            14 => self.draw_naming(is_there),
            _ => Operation::new(9, &[self.pick_link_where(is_served)]),
        }
    }

    /// A link from a counted event, often from the oldest with room, so that also large counts are used up.
    fn draw_use(&mut self) -> Operation {
        let source = if self.random.percent(50) { self.pick_from(0, has_room) } else { self.pick(has_room) };
        self.draw_link_from(source)
    }

    /// The same, with a new counted event if none has room: refusal 24 also comes up where no link can be made.
    pub(super) fn draw_last_use(&mut self) -> Operation {
        match self.pick_from(0, has_room) {
            0 => self.draw(13),
            _ => self.draw_use(),
        }
    }

    /// A dependence on the event, to the slot of a task or of an event, now and then its own.
    fn draw_link_from(&mut self, source: u64) -> Operation {
        let (destination, slot) = match self.random.below(10) {
            0 => (source, 0),
            1..=3 => self.pick_slot(),
            _ => self.pick_event_slot(),
        };
        Operation::new(5, &[self.caller(), source, destination, slot, 1 + self.random.below(4)])
    }

    /// A satisfaction of such an event, now or by a link.
    fn draw_feed(&mut self, wanted: Wanted) -> Operation {
        let (caller, event) = (self.caller(), self.pick(wanted));
        match self.random.below(4) {
            0 => self.draw_link_to(event),
            1 => self.draw_dependence_now(event),
            _ => Operation::new(6, &[caller, event, self.block_or_null(), 0]),
        }
    }

    fn draw_link_to(&mut self, event: u64) -> Operation {
        let (caller, (source, _)) = (self.caller(), self.pick_event_slot());
        Operation::new(5, &[caller, source, event, 0, 1 + self.random.below(4)])
    }

    fn draw_dependence_now(&mut self, event: u64) -> Operation {
        Operation::new(5, &[self.caller(), self.block_or_null(), event, 0, 1 + self.random.below(4)])
    }

    /// A call that names such an event: as source, as destination, to satisfy it or to destroy it.
    fn draw_naming(&mut self, wanted: Wanted) -> Operation {
        let (caller, event) = (self.caller(), self.pick(wanted));
        match self.random.below(8) {
            0 | 1 => self.draw_link_from(event),
            2 => self.draw_link_to(event),
            3 => self.draw_dependence_now(event),
            4 => Operation::new(6, &[caller, event, self.block_or_null(), 0]),
            _ => Operation::new(8, &[caller, event]),
        }
    }

    /// A call about a counted event that may well meet this refusal; `None` if it is no matter of theirs.
    pub(super) fn draw_counted_towards(&mut self, refusal: u32) -> Option<Operation> {
        Some(match refusal {
            7 => Operation::new(13, &[self.caller(), self.random.among(&[0, 17])]),
            11 => self.draw_naming(is_gone),
            14 => self.draw_feed(has_fired),
            20 => self.draw(13),
            21 => self.draw_use(),
            24 => {
                let source = self.pick(is_used_up);
                self.draw_link_from(source)
            }
            _ => return None,
        })
    }
}
