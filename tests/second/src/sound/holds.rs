//! Sound holds.

use crate::hold::{Hold, Place};
use crate::mode::Mode;
use crate::object::TaskState;
use crate::session::Session;

/// Every hold has its reason, none stands twice, no two conflict, and a granted task has all of its own.
pub fn are_sound(session: &Session) -> bool {
    let apart = |(place, hold): (usize, &Hold)| {
        session.holds[..place].iter().all(|other| other != hold && !hold.conflicts(other))
    };
    session.holds.iter().all(|hold| has_reason(session, hold))
        && session.holds.iter().enumerate().all(apart)
        && session.tasks().all(|(handle, task)| task.state != TaskState::Granted || holds_all(session, handle))
}

/// "a granted task holds all its slot blocks, a running one some of them or, in RW, blocks it made, others none".
fn has_reason(session: &Session, hold: &Hold) -> bool {
    let Some(task) = session.task(hold.task) else { return false };
    match hold.place {
        Place::Slot(_) => {
            matches!(task.state, TaskState::Granted | TaskState::Running)
                && session.wanted_holds(hold.task).contains(hold)
        }
        Place::Made => {
            let made = session.block(hold.block).is_some_and(|block| block.creator == hold.task);
            task.state == TaskState::Running && made && hold.mode == Mode::Rw
        }
    }
}

fn holds_all(session: &Session, task: u64) -> bool {
    session.wanted_holds(task).iter().all(|wish| session.holds.contains(wish))
}
