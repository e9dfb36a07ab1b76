//! A session of the second engine as words.

use super::numbers::*;
use crate::layout::{Field, SLOTS, WORDS};
use second::*;

/// The words of a session that the layout has room for.
pub fn to_words(session: &Session) -> Vec<u64> {
    let mut words = vec![0; WORDS];
    write_words(session, &mut words);
    words
}

/// The same over words that are zero, or into which an earlier session of the same list was written: an object keeps
/// its kind, so what that session did not have is still zero. Words past the layout stay.
pub fn write_words(session: &Session, words: &mut [u64]) {
    let mut put = |field: Field, place: usize, value: u64| words[field.at(place)] = value;
    put(Field::Objects, 0, session.object_count());
    put(Field::Links, 0, session.link_count());
    put(Field::Dropped, 0, session.dropped);
    for (handle, object) in (1..).zip(&session.objects) {
        write_object(&mut put, handle, object);
    }
    for (number, link) in (1..).zip(&session.links) {
        put(Field::LinkSource, number, link.source);
        put(Field::LinkTarget, number, link.destination);
        put(Field::LinkSlot, number, link.slot);
        put(Field::LinkState, number, number_of(link.state, &LINK_STATES));
    }
    for hold in &session.holds {
        write_hold(session, &mut put, hold);
    }
}

fn write_object(put: &mut impl FnMut(Field, usize, u64), handle: usize, object: &Object) {
    match object {
        Object::Template(template) => {
            put(Field::Kind, handle, 1);
            put(Field::TemplateState, handle, 1 + u64::from(template.destroyed));
            put(Field::TemplateCount, handle, template.count);
        }
        Object::Task(task) => {
            put(Field::Kind, handle, 2);
            write_task(put, handle, task);
        }
        Object::Event(event) => {
            put(Field::Kind, handle, 3);
            put(Field::EventState, handle, number_of(event.state, &EVENT_STATES));
            put(Field::EventType, handle, number_of(event.kind, &EVENT_TYPES));
            put(Field::EventPayload, handle, event.payload);
            put(Field::EventTally, handle, tally_number(event));
            put(Field::EventCount, handle, event.count);
        }
        Object::Block(block) => {
            put(Field::Kind, handle, 4);
            put(Field::BlockState, handle, number_of(block.state, &BLOCK_STATES));
            put(Field::BlockCreator, handle, block.creator);
            put(Field::BlockHeld, handle, 0);
        }
    }
}

fn write_task(put: &mut impl FnMut(Field, usize, u64), handle: usize, task: &Task) {
    // "TaskOutput: 1 if an output event follows it".
    assert!(task.output == 0 || task.output == handle as u64 + 1, "an output event is the next one after its task");
    put(Field::TaskState, handle, number_of(task.state, &TASK_STATES));
    put(Field::TaskCreator, handle, task.creator);
    put(Field::TaskSlots, handle, task.slots.len() as u64);
    put(Field::TaskFinish, handle, u64::from(task.finish));
    put(Field::TaskOutput, handle, u64::from(task.output != 0));
    assert!(task.slots.len() <= SLOTS);
    for (place, slot) in (handle * SLOTS..).zip(&task.slots) {
        put(Field::SlotMode, place, number_of(slot.mode, &MODES));
        put(Field::SlotMark, place, u64::from(slot.satisfied));
        put(Field::SlotPayload, place, slot.payload);
    }
}

/// A hold is a mark in memory: its task, block and mode are those of the slot or of the block made.
fn write_hold(session: &Session, put: &mut impl FnMut(Field, usize, u64), hold: &Hold) {
    match hold.place {
        Place::Slot(place) => {
            let slot = session.task(hold.task).and_then(|task| task.slots.get(place as usize));
            let agrees = |slot: &Slot| slot.satisfied && slot.payload == hold.block && slot.mode == Some(hold.mode);
            assert!(slot.is_some_and(agrees), "{hold:?} is not that of its slot");
            put(Field::SlotMark, hold.task as usize * SLOTS + place as usize, 2);
        }
        Place::Made => {
            let block = session.block(hold.block);
            assert!(block.is_some_and(|block| block.creator == hold.task) && hold.mode == Mode::Rw, "{hold:?}");
            put(Field::BlockHeld, hold.block as usize, 1);
        }
    }
}

/// "a latch's count plus 32,767 [..]; 0 for other types".
fn tally_number(event: &Event) -> u64 {
    let added = if event.kind == EventType::Latch { EVEN_TALLY } else { 0 };
    u64::try_from(event.tally + added).expect("a latch's count is at least -32,767")
}
