//! Sound objects other than tasks, and the two that a session begins with.

use crate::mode::Mode;
use crate::object::*;
use crate::session::Session;

/// "object 1 a block, 2 the main task". Main is as it was made but for its state, and block 1 has no creator (reading
/// 15, which `block_is_sound` follows for the blocks).
pub fn begins_as_made(session: &Session) -> bool {
    let slot = Slot { mode: Some(Mode::Rw), satisfied: true, payload: 1 };
    let as_made = |main: &Task| {
        main.creator == 0 && !main.finish && main.output == 0 && main.slots.as_slice() == [slot].as_slice()
    };
    session.block(1).is_some() && session.task(2).is_some_and(as_made)
}

/// "a payload 0 or a block".
pub fn payload_is_sound(session: &Session, payload: u64) -> bool {
    payload == 0 || session.block(payload).is_some()
}

/// The parts of an event that hold by themselves; an output event is also the next one after its task.
pub fn event_is_sound(session: &Session, handle: u64, event: &Event) -> bool {
    let follows = || session.task(handle - 1).is_some_and(|task| task.output == handle);
    payload_is_sound(session, event.payload)
        && (event.has_fired() || event.payload == 0)
        && tally_is_sound(event)
        && count_is_sound(session, handle, event)
        && (event.kind != EventType::Output || follows())
}

/// "an open latch is in range, a fired one 0", also one destroyed after it fired (reading 13); one destroyed unfired is
/// a number in range too. Other types have no tally (reading 14).
fn tally_is_sound(event: &Event) -> bool {
    if event.kind != EventType::Latch || event.has_fired() {
        event.tally == 0
    } else {
        (-LATCH_RANGE..=LATCH_RANGE).contains(&event.tally)
    }
}

/// "A sound session has no counted event with more links than its count, and one with that many delivered is
/// destroyed." The count is 1 to 16; other types have none.
fn count_is_sound(session: &Session, handle: u64, event: &Event) -> bool {
    if event.kind != EventType::Counted {
        return event.count == 0;
    }
    let destroyed = matches!(event.state, EventState::Destroyed { .. });
    (1..=16).contains(&event.count)
        && session.links_from(handle) <= event.count
        && (session.delivered_from(handle) < event.count || destroyed)
}

/// "doomed blocks are held, destroyed ones not"; a creator is a task, and block 1 alone has none (reading 15).
pub fn block_is_sound(session: &Session, handle: u64, block: &Block) -> bool {
    let creator = if handle == 1 { block.creator == 0 } else { session.task(block.creator).is_some() };
    creator
        && match block.state {
            BlockState::Live => true,
            BlockState::Doomed => session.is_held(handle),
            BlockState::Destroyed => !session.is_held(handle),
        }
}
