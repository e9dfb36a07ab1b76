//! Work that is left falls by exactly one with each accepted deliver, grant, start and end.

use second::steer::random_list;
use second::{Edition, Session, TaskState};

/// Undelivered links, and for each task the steps to its end.
fn work_left(session: &Session) -> u64 {
    let steps = |state| match state {
        TaskState::Waiting | TaskState::Resolved => 3,
        TaskState::Granted => 2,
        TaskState::Running => 1,
        TaskState::Ended | TaskState::Destroyed => 0,
    };
    session.undelivered_links() + session.tasks().map(|(_, task)| steps(task.state)).sum::<u64>()
}

/// "Limits on starts, finish firing and accepted steps still hold": in edition 2 as in edition 1.
#[test]
fn each_move_takes_one_off() {
    check_moves(Edition::First);
    check_moves(Edition::Second);
}

fn check_moves(edition: Edition) {
    let mut moves = [0; 4];
    for seed in 200..240 {
        let mut list = random_list(seed, 1_000).in_edition(edition);
        for _ in 0..1_000 {
            let before = work_left(&list.session);
            let (operation, answer) = list.next_call();
            if answer.refused == 0 && (9..=12).contains(&operation.code) {
                assert_eq!(work_left(&list.session) + 1, before, "{operation:?}");
                moves[operation.code as usize - 9] += 1;
            }
        }
    }
    assert!(moves.iter().all(|count| *count > 100), "{moves:?}");
}
