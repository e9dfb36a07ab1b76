//! How far an end climbs: request E5 of document 02, by hand.

mod common;

use common::{accept, operation, refuse, running};
use second::{Answer, EventState, Session, TaskState};

/// A session whose main runs, with template 3 of no pre-slots.
fn with_template() -> Session {
    let mut session = running();
    accept(&mut session, &[1, 2, 0], 3);
    session
}

/// A plain task without output, of the next handle.
fn make(session: &mut Session, caller: u64, handle: u64) {
    accept(session, &[2, caller, 3, 17, 0, 0], handle);
}

fn start(session: &mut Session, task: u64) {
    accept(session, &[10, task], 0);
    accept(session, &[11, task], 0);
}

/// A plain task without output that runs.
fn run(session: &mut Session, caller: u64, handle: u64) {
    make(session, caller, handle);
    start(session, handle);
}

fn end(session: &mut Session, task: u64, climbed: u64) {
    accept(session, &[12, task, 0], climbed);
}

/// Tasks 4 to 3 + n, all running, each made by the one before it, the first by main.
fn chain(n: u64) -> Session {
    let mut session = with_template();
    run(&mut session, 2, 4);
    (5..4 + n).for_each(|handle| run(&mut session, handle - 1, handle));
    session
}

/// 509 tasks are the most: handles 4 to 512.
const LENGTHS: [u64; 5] = [1, 2, 3, 16, 509];

/// All but the last have a live descendant as they end; the last one climbs over all of them, and main is the top.
#[test]
fn a_chain_from_the_outside_in() {
    for n in LENGTHS {
        let mut session = chain(n);
        (4..3 + n).for_each(|task| end(&mut session, task, 0));
        end(&mut session, 3 + n, n);
        end(&mut session, 2, 0);
    }
}

/// Each one's creator still runs.
#[test]
fn a_chain_from_the_inside_out() {
    for n in LENGTHS {
        let mut session = chain(n);
        (4..=3 + n).rev().for_each(|task| end(&mut session, task, 1));
        end(&mut session, 2, 0);
    }
}

/// With main ended before, the move to main counts all the same, and there is none from it.
#[test]
fn main_ends_first() {
    for n in LENGTHS {
        let mut session = chain(n);
        end(&mut session, 2, 0);
        (4..3 + n).for_each(|task| end(&mut session, task, 0));
        end(&mut session, 3 + n, n);
        assert_eq!(session.live_tasks(), 0);
    }
}

/// The middle one of five ends last: the innermost climbs to it, and it climbs the rest of the way.
#[test]
fn a_live_creator_stops_it() {
    let mut session = chain(5);
    end(&mut session, 4, 0);
    end(&mut session, 5, 0);
    end(&mut session, 7, 0);
    end(&mut session, 8, 2);
    end(&mut session, 6, 3);
}

/// Tasks 5 and 6 of task 4, task 7 of 5, task 9 of 6. All but 7 and 9 have ended; 9 is in each state that is live.
#[test]
fn a_live_cousin_stops_it() {
    for state in [TaskState::Waiting, TaskState::Resolved, TaskState::Granted, TaskState::Running] {
        let mut session = with_template();
        run(&mut session, 2, 4);
        run(&mut session, 4, 5);
        run(&mut session, 4, 6);
        run(&mut session, 5, 7);
        accept(&mut session, &[1, 2, 1], 8);
        let template = if state == TaskState::Waiting { 8 } else { 3 };
        accept(&mut session, &[2, 6, template, 17, 0, 0], 9);
        if matches!(state, TaskState::Granted | TaskState::Running) {
            accept(&mut session, &[10, 9], 0);
        }
        if state == TaskState::Running {
            accept(&mut session, &[11, 9], 0);
        }
        assert_eq!(session.task(9).unwrap().state, state);
        [4, 5, 6].into_iter().for_each(|task| end(&mut session, task, 0));
        // To 5 and to 4, which has 9 below it.
        end(&mut session, 7, 2);
        match state {
            TaskState::Running => end(&mut session, 9, 3),
            TaskState::Granted => {
                accept(&mut session, &[11, 9], 0);
                end(&mut session, 9, 3);
            }
            _ => accept(&mut session, &[8, 2, 9], 3),
        }
    }
}

/// A finish task does not stop it: 4 is one, with output 5, 6 is plain, 7 is one, with output 8, and 9 is plain.
#[test]
fn through_finish_tasks() {
    let mut session = with_template();
    accept(&mut session, &[2, 2, 3, 17, 1, 1], 4);
    start(&mut session, 4);
    run(&mut session, 4, 6);
    accept(&mut session, &[2, 6, 3, 17, 1, 1], 7);
    start(&mut session, 7);
    run(&mut session, 7, 9);
    [7, 6, 4].into_iter().for_each(|task| end(&mut session, task, 0));
    end(&mut session, 9, 4);
    for output in [5, 8] {
        assert_eq!(session.event(output).unwrap().state, EventState::Fired);
    }
}

/// A finish task without output is climbed past as well; one that fired before is none of the ancestors.
#[test]
fn past_a_finish_task_without_output() {
    let mut session = with_template();
    accept(&mut session, &[2, 2, 3, 17, 1, 0], 4);
    start(&mut session, 4);
    accept(&mut session, &[2, 4, 3, 17, 1, 1], 5);
    start(&mut session, 5);
    end(&mut session, 5, 1);
    assert_eq!(session.event(6).unwrap().state, EventState::Fired);
    run(&mut session, 4, 7);
    end(&mut session, 4, 0);
    end(&mut session, 7, 2);
}

/// "for destroying a task": at least one step, as it has no descendants.
#[test]
fn destroying_a_task() {
    let mut session = chain(3);
    make(&mut session, 6, 7);
    make(&mut session, 6, 8);
    accept(&mut session, &[1, 2, 1], 9);
    accept(&mut session, &[2, 6, 9, 17, 1, 1], 10);
    // The creator runs.
    accept(&mut session, &[8, 2, 7], 1);
    [4, 5, 6].into_iter().for_each(|task| end(&mut session, task, 0));
    // The creator has ended, with task 10 live.
    accept(&mut session, &[8, 2, 8], 1);
    // The last one, a waiting finish task: to 6, 5, 4 and main.
    accept(&mut session, &[8, 2, 10], 4);
}

/// The caller of a destroy may be what stops the climb, or have nothing to do with it.
#[test]
fn destroyed_by_another_task() {
    let mut session = chain(2);
    run(&mut session, 2, 6);
    make(&mut session, 5, 7);
    end(&mut session, 2, 0);
    end(&mut session, 4, 0);
    end(&mut session, 5, 0);
    accept(&mut session, &[8, 6, 7], 3);
    make(&mut session, 6, 8);
    accept(&mut session, &[8, 6, 8], 1);
    end(&mut session, 6, 1);
}

/// An ended child is no end of it: its own child is live.
#[test]
fn a_live_grandchild_under_an_ended_child() {
    let mut session = chain(3);
    end(&mut session, 5, 0);
    end(&mut session, 4, 0);
    end(&mut session, 6, 3);
}

/// Destroyed and ended descendants are not live.
#[test]
fn descendants_that_are_gone() {
    let mut session = chain(1);
    make(&mut session, 4, 5);
    run(&mut session, 4, 6);
    accept(&mut session, &[8, 4, 5], 1);
    end(&mut session, 6, 1);
    end(&mut session, 4, 1);
}

/// Other tasks of main's have no say.
#[test]
fn a_live_sibling_under_main() {
    let mut session = chain(1);
    run(&mut session, 2, 5);
    make(&mut session, 2, 6);
    end(&mut session, 4, 1);
    accept(&mut session, &[8, 2, 6], 1);
    end(&mut session, 2, 0);
    end(&mut session, 5, 1);
}

/// Main alone, and with tasks of its own that are live, ended or destroyed.
#[test]
fn the_end_of_main() {
    let mut session = running();
    end(&mut session, 2, 0);
    let mut session = chain(1);
    end(&mut session, 2, 0);
    let mut session = chain(1);
    end(&mut session, 4, 1);
    make(&mut session, 2, 5);
    accept(&mut session, &[8, 2, 5], 1);
    end(&mut session, 2, 0);
}

/// Destroying a template, a block that is held or not, or an event of any type climbs nowhere, where a task would.
#[test]
fn destroying_anything_else() {
    let mut session = chain(1);
    accept(&mut session, &[4, 2, 0], 5);
    accept(&mut session, &[4, 4, 1], 6);
    for (handle, kind) in [(7, 1), (8, 2), (9, 3), (10, 4)] {
        accept(&mut session, &[3, 2, kind], handle);
    }
    accept(&mut session, &[13, 2, 1], 11);
    for handle in [3, 5, 6, 7, 8, 9, 10, 11] {
        accept(&mut session, &[8, 2, handle], 0);
    }
}

/// "A refusal returns its number and 0", also where the task would climb.
#[test]
fn refused_ones() {
    let mut session = chain(2);
    make(&mut session, 5, 6);
    accept(&mut session, &[10, 6], 0);
    [4, 5].into_iter().for_each(|task| end(&mut session, task, 0));
    refuse(&mut session, &[12, 6, 0], 16);
    refuse(&mut session, &[8, 2, 6], 16);
    refuse(&mut session, &[12, 6, 99], 9);
    refuse(&mut session, &[8, 5, 6], 8);
    accept(&mut session, &[11, 6], 0);
    refuse(&mut session, &[12, 6, 3], 10);
    end(&mut session, 6, 3);
    // Ended ones are gone.
    refuse(&mut session, &[12, 6, 0], 11);
    refuse(&mut session, &[8, 2, 6], 11);
    let mut lent = session.clone();
    lent.dropped = 1;
    assert_eq!(lent.apply_checked(&operation(&[12, 2, 0])), Answer { refused: 2, made: 0 });
}
