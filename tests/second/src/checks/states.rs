//! Checks 15 to 18: holds and states.

use crate::call::Call;
use crate::hold::{Hold, Place};
use crate::link::LinkState;
use crate::object::{BlockState, TaskState};
use crate::session::Session;

/// "15. The caller does not hold the block." Release alone asks for a hold (reading 11).
pub fn not_held(session: &Session, call: &Call) -> bool {
    match *call {
        Call::Release { caller, block } => !session.holds_block(caller, block),
        _ => false,
    }
}

/// "16. The task or link is not in the state needed: destroy waiting or resolved, grant resolved, start granted, end
/// running, deliver ready."
pub fn not_in_state(session: &Session, call: &Call) -> bool {
    let state = |handle| session.task(handle).map(|task| task.state);
    match *call {
        Call::Destroy { object, .. } => matches!(state(object), Some(TaskState::Granted | TaskState::Running)),
        Call::Grant { task } => state(task) != Some(TaskState::Resolved),
        Call::Start { task } => state(task) != Some(TaskState::Granted),
        Call::End { task, .. } => state(task) != Some(TaskState::Running),
        Call::Deliver { link } => session.link(link).map(|link| link.state) != Some(LinkState::Ready),
        _ => false,
    }
}

/// "17. A pre-slot's block is doomed or destroyed." For grants only.
pub fn block_lost(session: &Session, call: &Call) -> bool {
    let Call::Grant { task } = *call else { return false };
    let lost = |hold: &Hold| session.block(hold.block).is_some_and(|block| block.state != BlockState::Live);
    session.wanted_holds(task).iter().any(lost)
}

/// "18. A hold of another task conflicts." For grants only: "a grant is refused on the first hold found in conflict".
pub fn conflicting(session: &Session, call: &Call) -> bool {
    let Call::Grant { task } = *call else { return false };
    let wanted = session.wanted_holds(task);
    wanted.iter().any(|wish| session.holds.iter().any(|hold| wish.conflicts(hold)))
}

impl Session {
    /// "Grant takes all non-null blocks of the pre-slots in their modes together".
    pub fn wanted_holds(&self, handle: u64) -> Vec<Hold> {
        let Some(task) = self.task(handle) else { return vec![] };
        let wish = |(place, slot): (usize, &crate::object::Slot)| match slot.mode {
            Some(mode) if slot.payload != 0 => {
                Some(Hold { task: handle, block: slot.payload, mode, place: Place::Slot(place as u64) })
            }
            _ => None,
        };
        task.slots.iter().enumerate().filter_map(wish).collect()
    }
}
