//! The numbers of docs/LAYOUT.md.

use second::*;

/// A latch's count is kept with so much added, so that it is never negative.
pub const EVEN_TALLY: i64 = 32_767;

pub const MARKS: [(u64, bool); 2] = [(0, false), (1, true)];

pub const TASK_STATES: [(u64, TaskState); 6] = [
    (1, TaskState::Waiting),
    (2, TaskState::Resolved),
    (3, TaskState::Granted),
    (4, TaskState::Running),
    (5, TaskState::Ended),
    (6, TaskState::Destroyed),
];

pub const EVENT_STATES: [(u64, EventState); 4] = [
    (1, EventState::Open),
    (2, EventState::Fired),
    (3, EventState::Destroyed { had_fired: false }),
    (4, EventState::Destroyed { had_fired: true }),
];

pub const EVENT_TYPES: [(u64, EventType); 6] = [
    (1, EventType::Once),
    (2, EventType::Idempotent),
    (3, EventType::Sticky),
    (4, EventType::Latch),
    (5, EventType::Output),
    (6, EventType::Counted),
];

pub const BLOCK_STATES: [(u64, BlockState); 3] =
    [(1, BlockState::Live), (2, BlockState::Doomed), (3, BlockState::Destroyed)];

pub const LINK_STATES: [(u64, LinkState); 4] =
    [(1, LinkState::Open), (2, LinkState::Ready), (3, LinkState::Delivered), (4, LinkState::Cut)];

pub const MODES: [(u64, Option<Mode>); 5] =
    [(0, None), (1, Some(Mode::Ro)), (2, Some(Mode::Rw)), (3, Some(Mode::Ew)), (4, Some(Mode::Const))];

/// What the number stands for.
pub fn choice<T: Copy>(number: u64, choices: &[(u64, T)]) -> Option<T> {
    choices.iter().find(|(choice, _)| *choice == number).map(|(_, meaning)| *meaning)
}

/// The number of a meaning.
pub fn number_of<T: Copy + PartialEq>(meaning: T, choices: &[(u64, T)]) -> u64 {
    choices
        .iter()
        .find(|(_, choice)| *choice == meaning)
        .map(|(number, _)| *number)
        .expect("every meaning has a number")
}
