//! P1 to P10 and the false roads (P6 is in codec.rs, P7 in listing.rs).

mod common;

use common::{accept, refuse, running};
use second::{EventState, LinkState, Session, TaskState};

fn fired(session: &Session, event: u64) -> bool {
    session.event(event).unwrap().state == EventState::Fired
}

#[test]
fn p1_to_p3_latches() {
    let mut session = running();
    accept(&mut session, &[3, 2, 4], 3);
    assert!(!fired(&session, 3), "P3");
    accept(&mut session, &[6, 2, 3, 0, 0], 0);
    assert!(!fired(&session, 3));
    accept(&mut session, &[6, 2, 3, 0, 1], 0);
    assert!(fired(&session, 3), "P1");
    accept(&mut session, &[3, 2, 4], 4);
    for slot in [1, 1, 0] {
        accept(&mut session, &[6, 2, 4, 1, slot], 0);
    }
    assert!(!fired(&session, 4), "P2");
    accept(&mut session, &[6, 2, 4, 1, 0], 0);
    assert!(fired(&session, 4));
    assert_eq!(session.event(4).unwrap().payload, 0);
    refuse(&mut session, &[6, 2, 4, 0, 0], 11);
}

#[test]
fn p4_sixteen_slots() {
    let mut session = running();
    accept(&mut session, &[1, 2, 16], 3);
    accept(&mut session, &[2, 2, 3, 17, 0, 0], 4);
    accept(&mut session, &[5, 2, 0, 4, 15, 1], 0);
    refuse(&mut session, &[5, 2, 0, 4, 16, 1], 12);
    refuse(&mut session, &[5, 2, 0, 4, 15, 1], 13);
}

#[test]
fn p5_the_last_object() {
    let mut session = running();
    for handle in 3..=511 {
        accept(&mut session, &[1, 2, 0], handle);
    }
    refuse(&mut session, &[2, 2, 3, 0, 0, 1], 20);
    accept(&mut session, &[3, 2, 1], 512);
    for call in [&[1, 2, 0][..], &[3, 2, 1], &[4, 2, 1], &[2, 2, 3, 0, 0, 0]] {
        refuse(&mut session, call, 20);
    }
}

/// P8, and "treating only children as descendants".
#[test]
fn p8_a_live_grandchild() {
    let mut session = running();
    accept(&mut session, &[1, 2, 0], 3);
    accept(&mut session, &[2, 2, 3, 0, 1, 1], 4);
    accept(&mut session, &[10, 4], 0);
    accept(&mut session, &[11, 4], 0);
    accept(&mut session, &[2, 4, 3, 17, 1, 1], 6);
    accept(&mut session, &[10, 6], 0);
    accept(&mut session, &[11, 6], 0);
    accept(&mut session, &[2, 6, 3, 17, 0, 0], 8);
    accept(&mut session, &[12, 6, 0], 0);
    accept(&mut session, &[12, 4, 1], 0);
    assert!(!fired(&session, 5) && !fired(&session, 7));
    // One operation fires both; here the destroying of the grandchild, which climbs to 6, to 4 and to main.
    accept(&mut session, &[8, 2, 8], 3);
    assert!(fired(&session, 5) && fired(&session, 7));
    assert_eq!(session.event(5).unwrap().payload, 0);
}

#[test]
fn p9_two_rw_holds() {
    let mut session = running();
    accept(&mut session, &[1, 2, 1], 3);
    accept(&mut session, &[2, 2, 3, 17, 0, 0], 4);
    accept(&mut session, &[5, 2, 1, 4, 0, 2], 0);
    accept(&mut session, &[10, 4], 0);
    assert_eq!(session.holds.len(), 2);
}

#[test]
fn p10_a_link_from_a_fired_sticky() {
    let mut session = running();
    accept(&mut session, &[3, 2, 3], 3);
    accept(&mut session, &[3, 2, 1], 4);
    accept(&mut session, &[6, 2, 3, 1, 0], 0);
    accept(&mut session, &[5, 2, 3, 4, 0, 1], 1);
    assert_eq!(session.links[0].state, LinkState::Ready);
    // "dropping ready links when their event goes" is a false road.
    accept(&mut session, &[8, 2, 3], 0);
    accept(&mut session, &[9, 1], 0);
    assert_eq!((fired(&session, 4), session.event(4).unwrap().payload, session.dropped), (true, 1, 0));
}

/// "granting block by block": a refused grant takes no hold at all.
#[test]
fn a_grant_takes_all_or_nothing() {
    let mut session = running();
    accept(&mut session, &[4, 2, 0], 3);
    accept(&mut session, &[1, 2, 2], 4);
    accept(&mut session, &[2, 2, 4, 2, 0, 0], 5);
    accept(&mut session, &[5, 2, 3, 5, 0, 3], 0);
    accept(&mut session, &[5, 2, 1, 5, 1, 3], 0);
    refuse(&mut session, &[10, 5], 18);
    accept(&mut session, &[7, 2, 1], 0);
    accept(&mut session, &[10, 5], 0);
    assert_eq!(session.holds.len(), 2);
}

/// Doomed blocks go with the last hold; what was granted starts and ends all the same.
#[test]
fn a_doomed_block() {
    let mut session = running();
    accept(&mut session, &[1, 2, 1], 3);
    accept(&mut session, &[2, 2, 3, 17, 0, 0], 4);
    accept(&mut session, &[5, 2, 1, 4, 0, 2], 0);
    accept(&mut session, &[2, 2, 3, 17, 0, 0], 5);
    accept(&mut session, &[5, 2, 1, 5, 0, 1], 0);
    accept(&mut session, &[10, 4], 0);
    accept(&mut session, &[8, 2, 1], 0);
    refuse(&mut session, &[7, 2, 1], 15);
    refuse(&mut session, &[8, 2, 1], 11);
    refuse(&mut session, &[10, 5], 17);
    accept(&mut session, &[11, 4], 0);
    accept(&mut session, &[7, 4, 1], 0);
    refuse(&mut session, &[7, 4, 1], 11);
    accept(&mut session, &[12, 4, 0], 1);
    assert_eq!(session.task(4).unwrap().state, TaskState::Ended);
}

/// "If the destination is gone, or a satisfied sticky, [..] the session's dropped count rises by 1"; idempotent takes
/// it.
#[test]
fn dropped_deliveries() {
    let mut session = running();
    for (handle, kind) in [(3, 3), (4, 1), (5, 2), (6, 3), (7, 1)] {
        accept(&mut session, &[3, 2, kind], handle);
    }
    for (link, destination) in (1..).zip([4, 5, 6, 7]) {
        accept(&mut session, &[5, 2, 3, destination, 0, 1], link);
    }
    for event in [4, 5, 6, 3] {
        accept(&mut session, &[6, 2, event, 0, 0], 0);
    }
    for (link, dropped) in [(1, 1), (2, 1), (3, 2), (4, 2)] {
        accept(&mut session, &[9, link], 0);
        assert_eq!(session.dropped, dropped);
    }
    refuse(&mut session, &[9, 1], 16);
    assert!(fired(&session, 7));
}
