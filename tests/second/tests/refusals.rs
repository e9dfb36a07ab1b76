//! The refusals and their order, by hand.

mod common;

use common::{accept, refuse, running};
use second::Session;

#[test]
fn unknown_codes_and_large_fields() {
    let mut session = running();
    for code in [0, 14, 15, 1 << 32, u64::MAX] {
        refuse(&mut session, &[code, 2, 1], 6);
    }
    refuse(&mut session, &[1, 2, u64::MAX], 7);
    refuse(&mut session, &[13, 2, u64::MAX], 7);
    refuse(&mut session, &[13, u64::MAX, 16], 8);
    refuse(&mut session, &[1, u64::MAX, 0], 8);
    refuse(&mut session, &[9, u64::MAX], 9);
    accept(&mut session, &[3, 2, 4], 3);
    refuse(&mut session, &[6, 2, 3, 0, (1 << 32) + 1], 12);
}

/// Ranges come before the caller, the caller before handles, all handles in 9, then all in 10, then all in 11.
#[test]
fn fields_in_the_order_of_the_checks() {
    let mut session = running();
    accept(&mut session, &[1, 2, 17], 3);
    accept(&mut session, &[4, 2, 0], 4);
    accept(&mut session, &[3, 2, 1], 5);
    accept(&mut session, &[8, 2, 4], 0);
    refuse(&mut session, &[5, 9, 99, 99, 0, 5], 7);
    refuse(&mut session, &[5, 9, 99, 99, 0, 4], 8);
    refuse(&mut session, &[5, 1, 0, 5, 0, 1], 8);
    refuse(&mut session, &[5, 2, 3, 99, 0, 1], 9);
    refuse(&mut session, &[5, 2, 0, 0, 0, 1], 9);
    refuse(&mut session, &[5, 2, 4, 3, 0, 1], 10);
    refuse(&mut session, &[5, 2, 4, 5, 7, 1], 11);
    refuse(&mut session, &[5, 2, 0, 5, 1, 1], 12);
    // The mode is looked at also for an event (reading 5).
    refuse(&mut session, &[5, 2, 0, 5, 0, 0], 7);
    accept(&mut session, &[5, 2, 0, 5, 0, 1], 0);
    refuse(&mut session, &[5, 2, 5, 2, 0, 1], 11);
    refuse(&mut session, &[7, 2, 0], 9);
    refuse(&mut session, &[12, 2, 5], 10);
    refuse(&mut session, &[12, 2, 4], 11);
}

#[test]
fn counts_under_a_template() {
    let mut session = running();
    accept(&mut session, &[1, 2, 17], 3);
    accept(&mut session, &[1, 2, 2], 4);
    refuse(&mut session, &[2, 2, 3, 18, 0, 0], 7);
    refuse(&mut session, &[2, 2, 3, 1, 2, 0], 7);
    refuse(&mut session, &[2, 2, 3, 17, 0, 0], 12);
    refuse(&mut session, &[2, 2, 4, 1, 0, 0], 12);
    accept(&mut session, &[2, 2, 3, 16, 0, 0], 5);
    accept(&mut session, &[2, 2, 4, 2, 0, 0], 6);
    accept(&mut session, &[8, 2, 4], 0);
    refuse(&mut session, &[2, 2, 4, 1, 0, 0], 11);
}

/// An output event may be a source, but is not satisfied, destroyed or a destination.
#[test]
fn output_events() {
    let mut session = running();
    accept(&mut session, &[1, 2, 0], 3);
    accept(&mut session, &[2, 2, 3, 0, 0, 1], 4);
    accept(&mut session, &[3, 2, 3], 6);
    refuse(&mut session, &[6, 2, 5, 0, 0], 10);
    refuse(&mut session, &[8, 2, 5], 10);
    refuse(&mut session, &[5, 2, 6, 5, 0, 1], 10);
    accept(&mut session, &[5, 2, 5, 6, 0, 1], 1);
    refuse(&mut session, &[9, 1], 16);
    accept(&mut session, &[8, 2, 4], 1);
    refuse(&mut session, &[9, 1], 16);
    refuse(&mut session, &[5, 2, 5, 6, 0, 1], 11);
    assert_eq!(session.undelivered_links(), 0);
}

/// "Once, latch and output count as gone as soon as fired [..]; ready links still deliver."
#[test]
fn fired_events_that_are_gone() {
    let mut session = running();
    accept(&mut session, &[1, 2, 0], 3);
    accept(&mut session, &[2, 2, 3, 0, 0, 1], 4);
    for (handle, kind) in [(6, 1), (7, 4), (8, 2)] {
        accept(&mut session, &[3, 2, kind], handle);
    }
    for (link, source) in (1..).zip([5, 6, 7]) {
        accept(&mut session, &[5, 2, source, 8, 0, 1], link);
    }
    accept(&mut session, &[10, 4], 0);
    accept(&mut session, &[11, 4], 0);
    accept(&mut session, &[12, 4, 1], 1);
    for call in [[6, 2, 6, 0, 0], [6, 2, 7, 0, 0], [6, 2, 7, 0, 1]] {
        accept(&mut session, &call, 0);
    }
    for (link, source) in (1..).zip([5, 6, 7]) {
        refuse(&mut session, &[5, 2, source, 8, 0, 1], 11);
        accept(&mut session, &[9, link], 0);
    }
    refuse(&mut session, &[8, 2, 6], 11);
    refuse(&mut session, &[8, 2, 7], 11);
    // The first delivery brought what task 4 returned.
    assert_eq!((session.event(8).unwrap().payload, session.dropped), (1, 0));
}

/// Every pair of modes, one task granted and the other asking: refused in "RW with EW, EW with EW, CONST with RW, CONST
/// with EW" either way round.
#[test]
fn conflicts_of_modes() {
    let conflicts = [(2, 3), (3, 2), (3, 3), (4, 2), (2, 4), (4, 3), (3, 4)];
    for (first, second) in (1..=4).flat_map(|first| (1..=4).map(move |second| (first, second))) {
        let mut session = running();
        accept(&mut session, &[4, 2, 0], 3);
        accept(&mut session, &[1, 2, 2], 4);
        for (task, mode) in [(5, first), (6, second)] {
            accept(&mut session, &[2, 2, 4, 2, 0, 0], task);
            accept(&mut session, &[5, 2, 0, task, 0, 3], 0);
            accept(&mut session, &[5, 2, 3, task, 1, mode], 0);
        }
        accept(&mut session, &[10, 5], 0);
        if conflicts.contains(&(first, second)) {
            refuse(&mut session, &[10, 6], 18);
        } else {
            accept(&mut session, &[10, 6], 0);
        }
    }
}

/// "A task never conflicts with itself."
#[test]
fn one_task_holds_a_block_twice() {
    let mut session = running();
    accept(&mut session, &[4, 2, 0], 3);
    accept(&mut session, &[1, 2, 2], 4);
    accept(&mut session, &[2, 2, 4, 2, 0, 0], 5);
    accept(&mut session, &[5, 2, 3, 5, 0, 3], 0);
    accept(&mut session, &[5, 2, 3, 5, 1, 3], 0);
    accept(&mut session, &[10, 5], 0);
    accept(&mut session, &[11, 5], 0);
    assert_eq!(session.holds.len(), 3);
    accept(&mut session, &[7, 5, 3], 0);
    assert_eq!(session.holds.len(), 1);
    refuse(&mut session, &[7, 5, 3], 15);
}

/// "Checks 14 and 19 concern only calls that satisfy now, not one that makes a link."
#[test]
fn a_fired_sticky_takes_links() {
    let mut session = running();
    accept(&mut session, &[3, 2, 3], 3);
    accept(&mut session, &[6, 2, 3, 0, 0], 0);
    refuse(&mut session, &[6, 2, 3, 0, 0], 14);
    refuse(&mut session, &[5, 2, 1, 3, 0, 1], 14);
    accept(&mut session, &[5, 2, 3, 3, 0, 1], 1);
    accept(&mut session, &[9, 1], 0);
    assert_eq!(session.dropped, 1);
}

#[test]
fn task_states() {
    let mut session = Session::fresh();
    refuse(&mut session, &[1, 2, 0], 8);
    refuse(&mut session, &[11, 2], 16);
    refuse(&mut session, &[12, 2, 0], 16);
    refuse(&mut session, &[10, 1], 10);
    refuse(&mut session, &[10, 0], 9);
    let mut session = running();
    refuse(&mut session, &[8, 2, 2], 16);
    refuse(&mut session, &[10, 2], 16);
    accept(&mut session, &[12, 2, 1], 0);
    refuse(&mut session, &[10, 2], 11);
    refuse(&mut session, &[12, 2, 0], 11);
}

#[test]
fn the_ends_of_a_latch() {
    for (slot, other) in [(0, 1), (1, 0)] {
        let mut session = running();
        accept(&mut session, &[3, 2, 4], 3);
        accept(&mut session, &[3, 2, 3], 4);
        accept(&mut session, &[6, 2, 4, 0, 0], 0);
        for _ in 0..32_767 {
            accept(&mut session, &[6, 2, 3, 0, slot], 0);
        }
        refuse(&mut session, &[6, 2, 3, 0, slot], 19);
        refuse(&mut session, &[5, 2, 0, 3, slot, 1], 19);
        accept(&mut session, &[5, 2, 4, 3, slot, 1], 1);
        accept(&mut session, &[9, 1], 0);
        assert_eq!(session.dropped, 1);
        accept(&mut session, &[6, 2, 3, 0, other], 0);
        accept(&mut session, &[6, 2, 3, 0, slot], 0);
    }
}

#[test]
fn the_last_link() {
    let mut session = running();
    accept(&mut session, &[3, 2, 2], 3);
    for link in 1..=2_048 {
        accept(&mut session, &[5, 2, 3, 3, 0, 1], link);
    }
    refuse(&mut session, &[5, 2, 3, 3, 0, 1], 21);
    accept(&mut session, &[5, 2, 1, 3, 0, 1], 0);
    accept(&mut session, &[9, 2_048], 0);
    refuse(&mut session, &[9, 2_049], 9);
    assert_eq!((session.undelivered_links(), session.dropped), (2_047, 0));
}
