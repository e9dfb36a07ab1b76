//! "Why an operation is turned down": the checks in their order, which is that of their numbers but for 24.
//!
//! A check may take for granted that the ones before it passed; where they did not, its answer is not asked for.

mod fields;
mod room;
mod slots;
mod states;

use crate::call::Call;
use crate::operation::{Answer, Operation};
use crate::session::Session;

type Fails = fn(&Session, &Call) -> bool;

/// "Each check covers all fields before the next check"; 24 is "checked after 14".
const CHECKS: [(u32, Fails); 16] = [
    (7, fields::out_of_range),
    (8, fields::caller_not_running),
    (9, fields::never_made),
    (10, fields::wrong_kind),
    (11, fields::gone),
    (12, slots::no_such_slot_or_count),
    (13, slots::already_claimed),
    (14, slots::sticky_has_fired),
    (24, room::count_used_up),
    (15, states::not_held),
    (16, states::not_in_state),
    (17, states::block_lost),
    (18, states::conflicting),
    (19, slots::latch_leaves_range),
    (20, room::objects_full),
    (21, room::links_full),
];

impl Session {
    /// The refusal that the operation meets from check 6 on, 0 if it is accepted. The session must be sound.
    pub fn check(&self, operation: &Operation) -> u32 {
        let Some(call) = Call::of(operation) else { return 6 };
        CHECKS.iter().find(|(_, fails)| fails(self, &call)).map_or(0, |(number, _)| *number)
    }

    /// A single operation on a session known to be sound (check 2 left out).
    pub fn apply(&mut self, operation: &Operation) -> Answer {
        let refused = self.check(operation);
        let made = match Call::of(operation) {
            Some(call) if refused == 0 => self.perform(&call),
            _ => 0,
        };
        Answer { refused, made }
    }

    /// A single operation on any session: check 2 comes first.
    pub fn apply_checked(&mut self, operation: &Operation) -> Answer {
        if !self.is_sound() {
            return Answer { refused: 2, made: 0 };
        }
        self.apply(operation)
    }
}
