//! Sound links.

use crate::link::{Link, LinkState};
use crate::object::{EventState, Object};
use crate::session::Session;

/// "handles, links and numbers in range, each handle of the kind its field needs": from an event to a slot that the
/// destination has.
pub fn is_sound(session: &Session, link: &Link) -> bool {
    let Some(source) = session.event(link.source) else { return false };
    let slots = match session.object(link.destination) {
        Some(Object::Task(task)) => task.slots.len() as u64,
        Some(Object::Event(event)) => event.slot_count(),
        _ => 0,
    };
    link.slot < slots && state_agrees(link.state, source.state)
}

/// "links are open, cut, or ready/delivered as the source is open, destroyed unfired, or fired"; fired takes in
/// destroyed after it fired (reading 13).
fn state_agrees(link: LinkState, source: EventState) -> bool {
    match source {
        EventState::Open => link == LinkState::Open,
        EventState::Destroyed { had_fired: false } => link == LinkState::Cut,
        EventState::Fired | EventState::Destroyed { had_fired: true } => {
            matches!(link, LinkState::Ready | LinkState::Delivered)
        }
    }
}

/// "dropped is at most the delivered links".
pub fn dropped_is_sound(session: &Session) -> bool {
    let delivered = session.links.iter().filter(|link| link.state == LinkState::Delivered).count();
    session.dropped <= delivered as u64
}
