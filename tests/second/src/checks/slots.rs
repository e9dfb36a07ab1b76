//! Checks 12, 13, 14 and 19: counts, slots and what a satisfaction meets.

use crate::call::Call;
use crate::object::{Event, Object, UNKNOWN};
use crate::session::Session;

/// "12. The destination has no such slot, or the count is not admitted."
pub fn no_such_slot_or_count(session: &Session, call: &Call) -> bool {
    match *call {
        Call::Task { template, count, .. } => count_not_admitted(session, template, count),
        Call::Dependence { destination, slot, .. } => slot >= slot_count(session, destination),
        Call::Satisfy { event, slot, .. } => slot >= slot_count(session, event),
        _ => false,
    }
}

/// "A template with a known count admits only that count or 17; 17 under an unknown count is refusal 12."
fn count_not_admitted(session: &Session, template: u64, count: u64) -> bool {
    match session.template(template).map(|template| template.count) {
        None => false,
        Some(UNKNOWN) => count == UNKNOWN,
        Some(known) => count != UNKNOWN && count != known,
    }
}

fn slot_count(session: &Session, destination: u64) -> u64 {
    match session.object(destination) {
        Some(Object::Task(task)) => task.slots.len() as u64,
        Some(Object::Event(event)) => event.slot_count(),
        _ => 0,
    }
}

/// "13. The pre-slot is already claimed." Only a task's slot is ever claimed.
pub fn already_claimed(session: &Session, call: &Call) -> bool {
    let Call::Dependence { destination, slot, .. } = *call else { return false };
    let Some(task) = session.task(destination) else { return false };
    task.slots.get(slot as usize).is_some_and(|slot| slot.mode.is_some())
}

/// The event that the call satisfies at once, and its slot. "Checks 14 and 19 concern only calls that satisfy now, not
/// one that makes a link."
fn satisfied_now<'a>(session: &'a Session, call: &Call) -> Option<(&'a Event, u64)> {
    match *call {
        Call::Satisfy { event, slot, .. } => Some((session.event(event)?, slot)),
        Call::Dependence { source, destination, slot, .. } if session.event(source).is_none() => {
            Some((session.event(destination)?, slot))
        }
        _ => None,
    }
}

/// "14. The sticky event has fired." So has a counted one: "a second call gives 14".
pub fn sticky_has_fired(session: &Session, call: &Call) -> bool {
    satisfied_now(session, call).is_some_and(|(event, _)| event.has_taken_one())
}

/// "19. The latch would leave its range."
pub fn latch_leaves_range(session: &Session, call: &Call) -> bool {
    satisfied_now(session, call).is_some_and(|(event, slot)| event.leaves_range(slot))
}
