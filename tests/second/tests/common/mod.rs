//! Helpers of the tests.
#![allow(dead_code)]

use second::{Answer, Operation, Session};

/// An operation from its code and fields in one list.
pub fn operation(numbers: &[u64]) -> Operation {
    Operation::new(numbers[0], &numbers[1..])
}

/// A session whose main task runs.
pub fn running() -> Session {
    let mut session = Session::fresh();
    accept(&mut session, &[10, 2], 0);
    accept(&mut session, &[11, 2], 0);
    session
}

/// The call is accepted and makes `made`, or climbs as far; the session stays sound.
#[track_caller]
pub fn accept(session: &mut Session, numbers: &[u64], made: u64) {
    assert_eq!(session.apply(&operation(numbers)), Answer { refused: 0, made }, "{numbers:?}");
    assert!(session.is_sound(), "not sound after {numbers:?}");
}

/// The call meets this refusal and changes nothing.
#[track_caller]
pub fn refuse(session: &mut Session, numbers: &[u64], refused: u32) {
    let before = session.clone();
    assert_eq!(session.apply(&operation(numbers)), Answer { refused, made: 0 }, "{numbers:?}");
    assert_eq!(*session, before, "changed by {numbers:?}");
}
