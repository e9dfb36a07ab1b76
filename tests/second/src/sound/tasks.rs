//! Sound tasks.

use super::arrivals::Arrivals;
use super::objects::payload_is_sound;
use crate::link::{Link, LinkState};
use crate::object::*;
use crate::session::Session;

/// All that is said of a task; `below` is whether a descendant of it is live.
pub fn is_sound(session: &Session, handle: u64, task: &Task, arrivals: &Arrivals, below: bool) -> bool {
    let slot_is_sound = |(place, slot): (usize, &Slot)| {
        slot_holds(session, slot)
            && slot_agrees(task, slot, arrivals.at(handle, place))
            && payload_agrees(session, slot, arrivals.at(handle, place))
    };
    task.slots.len() <= 16
        && creator_is_sound(session, handle, task)
        && output_is_sound(session, handle, task, below)
        && task.slots.iter().enumerate().all(slot_is_sound)
        && state_agrees(task)
}

/// "every other task's creator is a lower task, running or ended".
fn creator_is_sound(session: &Session, handle: u64, task: &Task) -> bool {
    let ran = |creator: &Task| matches!(creator.state, TaskState::Running | TaskState::Ended);
    handle == 2 || (task.creator < handle && session.task(task.creator).is_some_and(ran))
}

/// "an output event follows its task, fired exactly if the task ended and, for finish, no descendant is live, destroyed
/// exactly if the task is". A destroyed task did not end, so its event has no mark that it had fired (reading 17).
fn output_is_sound(session: &Session, handle: u64, task: &Task, below: bool) -> bool {
    if task.output == 0 {
        return true;
    }
    let Some(event) = session.event(task.output) else { return false };
    let fires = task.state == TaskState::Ended && !(task.finish && below);
    let destroyed = event.state == EventState::Destroyed { had_fired: false };
    task.output == handle + 1
        && event.kind == EventType::Output
        && (event.state == EventState::Fired) == fires
        && destroyed == (task.state == TaskState::Destroyed)
        && event.state != EventState::Destroyed { had_fired: true }
}

/// A slot by itself: "a task's unclaimed slot is unsatisfied"; a payload is 0 or a block, and 0 while unsatisfied
/// (reading 14).
fn slot_holds(session: &Session, slot: &Slot) -> bool {
    payload_is_sound(session, slot.payload)
        && (slot.satisfied || slot.payload == 0)
        && (slot.mode.is_some() || !slot.satisfied)
}

/// "a task's unclaimed slot [..] has no link to it"; "a claimed slot of a task not destroyed is unsatisfied exactly if
/// it has a link that is open, ready or cut".
fn slot_agrees(task: &Task, slot: &Slot, link: Option<&Link>) -> bool {
    if slot.mode.is_none() {
        return link.is_none();
    }
    let owed = link.is_some_and(|link| link.state != LinkState::Delivered);
    task.state == TaskState::Destroyed || slot.satisfied != owed
}

/// "a task's satisfied slot with a delivered link has that source's payload".
fn payload_agrees(session: &Session, slot: &Slot, link: Option<&Link>) -> bool {
    match link {
        Some(link) if slot.satisfied && link.state == LinkState::Delivered => {
            session.event(link.source).is_some_and(|source| source.payload == slot.payload)
        }
        _ => true,
    }
}

/// "waiting, resolved and later states agree with the slots". A destroyed task may have been either.
fn state_agrees(task: &Task) -> bool {
    match task.state {
        TaskState::Waiting => !task.all_satisfied(),
        TaskState::Resolved | TaskState::Granted | TaskState::Running | TaskState::Ended => task.all_satisfied(),
        TaskState::Destroyed => true,
    }
}
