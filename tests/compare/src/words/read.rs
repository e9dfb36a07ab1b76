//! Words as a session of the second engine.

use super::numbers::*;
use super::write::to_words;
use crate::layout::{Field, SLOTS, WORDS};
use second::session::{MAX_LINKS, MAX_OBJECTS};
use second::*;

/// The session that the words are, if the second engine's types can hold it: `None` for states, modes and types that
/// there are not, counts past the layout, and unused parts that are not zero. Whether it is sound is not looked at.
pub fn from_words(words: &[u64]) -> Option<Session> {
    let words = words.get(..WORDS)?;
    let get = |field: Field, place: usize| words[field.at(place)];
    let objects = Some(get(Field::Objects, 0)).filter(|count| *count <= MAX_OBJECTS)?;
    let links = Some(get(Field::Links, 0)).filter(|count| *count <= MAX_LINKS)?;
    let mut session = Session { objects: vec![], links: vec![], holds: vec![], dropped: get(Field::Dropped, 0) };
    for handle in 1..=objects as usize {
        session.objects.push(read_object(&get, handle)?);
        read_holds(&get, handle, &mut session)?;
    }
    for number in 1..=links as usize {
        session.links.push(read_link(&get, number)?);
    }
    // What was not read has to be zero, and what was read is written back as it stood.
    (to_words(&session) == words).then_some(session)
}

fn read_object(get: &impl Fn(Field, usize) -> u64, handle: usize) -> Option<Object> {
    Some(match get(Field::Kind, handle) {
        1 => Object::Template(Template {
            destroyed: choice(get(Field::TemplateState, handle), &[(1, false), (2, true)])?,
            count: get(Field::TemplateCount, handle),
        }),
        2 => Object::Task(read_task(get, handle)?),
        3 => Object::Event(read_event(get, handle)?),
        4 => Object::Block(Block {
            state: choice(get(Field::BlockState, handle), &BLOCK_STATES)?,
            creator: get(Field::BlockCreator, handle),
        }),
        _ => return None,
    })
}

fn read_task(get: &impl Fn(Field, usize) -> u64, handle: usize) -> Option<Task> {
    let count = Some(get(Field::TaskSlots, handle)).filter(|count| *count <= SLOTS as u64)?;
    let follows = choice(get(Field::TaskOutput, handle), &MARKS)?;
    let slot = |place| {
        Some(Slot {
            mode: choice(get(Field::SlotMode, place), &MODES)?,
            satisfied: choice(get(Field::SlotMark, place), &[(0, false), (1, true), (2, true)])?,
            payload: get(Field::SlotPayload, place),
        })
    };
    Some(Task {
        state: choice(get(Field::TaskState, handle), &TASK_STATES)?,
        slots: (handle * SLOTS..).take(count as usize).map(slot).collect::<Option<_>>()?,
        creator: get(Field::TaskCreator, handle),
        finish: choice(get(Field::TaskFinish, handle), &MARKS)?,
        output: if follows { handle as u64 + 1 } else { 0 },
    })
}

fn read_event(get: &impl Fn(Field, usize) -> u64, handle: usize) -> Option<Event> {
    let kind = choice(get(Field::EventType, handle), &EVENT_TYPES)?;
    let tally = i64::try_from(get(Field::EventTally, handle)).ok()?;
    Some(Event {
        kind,
        state: choice(get(Field::EventState, handle), &EVENT_STATES)?,
        payload: get(Field::EventPayload, handle),
        tally: if kind == EventType::Latch { tally - EVEN_TALLY } else { tally },
        count: get(Field::EventCount, handle),
    })
}

/// The holds of the object just read: by a task's slots, or by a block's creator.
fn read_holds(get: &impl Fn(Field, usize) -> u64, handle: usize, session: &mut Session) -> Option<()> {
    let task = handle as u64;
    match session.objects.last()? {
        Object::Task(Task { slots, .. }) => {
            for (place, slot) in slots.iter().enumerate() {
                if get(Field::SlotMark, handle * SLOTS + place) == 2 {
                    let place = Place::Slot(place as u64);
                    session.holds.push(Hold { task, block: slot.payload, mode: slot.mode?, place });
                }
            }
        }
        Object::Block(Block { creator, .. }) => {
            if choice(get(Field::BlockHeld, handle), &MARKS)? {
                let hold = Hold { task: *creator, block: handle as u64, mode: Mode::Rw, place: Place::Made };
                session.holds.push(hold);
            }
        }
        _ => (),
    }
    Some(())
}

fn read_link(get: &impl Fn(Field, usize) -> u64, number: usize) -> Option<Link> {
    Some(Link {
        source: get(Field::LinkSource, number),
        destination: get(Field::LinkTarget, number),
        slot: get(Field::LinkSlot, number),
        state: choice(get(Field::LinkState, number), &LINK_STATES)?,
    })
}

/// Whether the words are a sound session, as the second engine finds: they are a session, and it is sound.
pub fn is_sound(words: &[u64]) -> bool {
    from_words(words).is_some_and(|session| session.is_sound())
}
