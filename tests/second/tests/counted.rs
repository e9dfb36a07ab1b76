//! Counted events: request E4 of document 02, by hand.

mod common;

use common::{accept, operation, refuse, running};
use second::{run_over, Answer, Event, EventState, EventType, LinkState, Session};

const GONE: EventState = EventState::Destroyed { had_fired: true };

fn state(session: &Session, event: u64) -> EventState {
    session.event(event).unwrap().state
}

/// A session with a counted event 3 of that count and an idempotent event 4.
fn with_counted(count: u64) -> Session {
    let mut session = running();
    accept(&mut session, &[13, 2, count], 3);
    accept(&mut session, &[3, 2, 2], 4);
    session
}

/// Link 1 and on, so many of them, from the counted event 3 to event 4.
fn make_links(session: &mut Session, count: u64) {
    (1..=count).for_each(|link| accept(session, &[5, 2, 3, 4, 0, 1], link));
}

#[test]
fn a_fresh_one() {
    for count in 1..=16 {
        let session = with_counted(count);
        let fresh = Event { kind: EventType::Counted, state: EventState::Open, payload: 0, tally: 0, count };
        assert_eq!(session.event(3), Some(&fresh));
        assert_eq!(session.event(4).unwrap().count, 0);
    }
    assert_eq!(EventType::try_from(6), Ok(EventType::Counted));
}

/// "Operation 13 (caller, count 1..16)": 6, 7, 8, 20 in this order; operation 3 makes types 1 to 4 only.
#[test]
fn refusals_of_operation_13() {
    let mut session = Session::fresh();
    refuse(&mut session, &[13, 2, 0], 7);
    refuse(&mut session, &[13, 2, 1], 8);
    let mut session = running();
    for count in [0, 17, 18, 1 << 32, u64::MAX] {
        refuse(&mut session, &[13, 99, count], 7);
        refuse(&mut session, &[13, 2, count], 7);
    }
    for caller in [0, 1, 3, 99] {
        refuse(&mut session, &[13, caller, 1], 8);
    }
    refuse(&mut session, &[3, 2, 5], 7);
    refuse(&mut session, &[3, 2, 6], 7);
    for handle in 3..=512 {
        accept(&mut session, &[13, 2, 1 + handle % 16], handle);
    }
    refuse(&mut session, &[13, 2, 0], 7);
    refuse(&mut session, &[13, 3, 1], 8);
    refuse(&mut session, &[13, 2, 1], 20);
}

/// "is destroyed when its count of links has been delivered": with every count, whatever part of the links was made
/// before the firing. What it has stays.
#[test]
fn it_goes_with_its_count() {
    for (count, before) in (1..=16).flat_map(|count| (0..=count).map(move |before| (count, before))) {
        let mut session = with_counted(count);
        make_links(&mut session, before);
        accept(&mut session, &[6, 2, 3, 1, 0], 0);
        for link in before + 1..=count {
            accept(&mut session, &[5, 2, 3, 4, 0, 1], link);
        }
        assert!(session.links.iter().all(|link| link.state == LinkState::Ready));
        refuse(&mut session, &[5, 2, 3, 4, 0, 1], 24);
        for link in (1..=count).rev() {
            assert_eq!(state(&session, 3), EventState::Fired, "{link} of {count}");
            refuse(&mut session, &[6, 2, 3, 0, 0], 14);
            accept(&mut session, &[9, link], 0);
        }
        let gone = Event { kind: EventType::Counted, state: GONE, payload: 1, tally: 0, count };
        assert_eq!((session.event(3), session.dropped), (Some(&gone), 0));
        let calls: [&[u64]; 6] = [
            &[5, 2, 3, 4, 0, 1],
            &[5, 2, 4, 3, 0, 1],
            &[5, 2, 0, 3, 0, 1],
            &[5, 2, 1, 3, 0, 1],
            &[6, 2, 3, 0, 0],
            &[8, 2, 3],
        ];
        calls.iter().for_each(|call| refuse(&mut session, call, 11));
    }
}

/// One that has fewer links than its count stays, served or not.
#[test]
fn it_stays_until_then() {
    let mut session = with_counted(3);
    make_links(&mut session, 2);
    accept(&mut session, &[6, 2, 3, 1, 0], 0);
    accept(&mut session, &[9, 1], 0);
    accept(&mut session, &[9, 2], 0);
    assert_eq!(state(&session, 3), EventState::Fired);
    accept(&mut session, &[5, 2, 3, 4, 0, 1], 3);
    refuse(&mut session, &[5, 2, 3, 4, 0, 1], 24);
    accept(&mut session, &[9, 3], 0);
    assert_eq!(state(&session, 3), GONE);
}

/// "takes one satisfaction as sticky does (a second call gives 14, a second delivery is dropped)".
#[test]
fn one_satisfaction() {
    let mut session = with_counted(2);
    accept(&mut session, &[3, 2, 3], 5);
    for link in 1..=3 {
        accept(&mut session, &[5, 2, 5, 3, 0, 1], link);
    }
    accept(&mut session, &[6, 2, 5, 1, 0], 0);
    accept(&mut session, &[9, 1], 0);
    assert_eq!((state(&session, 3), session.event(3).unwrap().payload), (EventState::Fired, 1));
    for call in [&[6, 2, 3, 0, 0][..], &[5, 2, 0, 3, 0, 1], &[5, 2, 1, 3, 0, 1]] {
        refuse(&mut session, call, 14);
    }
    accept(&mut session, &[9, 2], 0);
    assert_eq!((session.dropped, session.event(3).unwrap().payload), (1, 1));
    for link in [4, 5] {
        accept(&mut session, &[5, 2, 3, 4, 0, 1], link);
        accept(&mut session, &[9, link], 0);
    }
    assert_eq!(state(&session, 3), GONE);
    accept(&mut session, &[9, 3], 0);
    assert_eq!(session.dropped, 2);
}

/// A delivery that is dropped counts, as the link is delivered.
#[test]
fn dropped_deliveries_count() {
    let mut session = with_counted(3);
    accept(&mut session, &[3, 2, 1], 5);
    accept(&mut session, &[1, 2, 1], 6);
    accept(&mut session, &[2, 2, 6, 1, 0, 0], 7);
    accept(&mut session, &[13, 2, 1], 8);
    for (link, destination) in [(1, 5), (2, 7), (3, 8)] {
        accept(&mut session, &[5, 2, 3, destination, 0, 1], link);
    }
    accept(&mut session, &[6, 2, 5, 0, 0], 0);
    accept(&mut session, &[8, 2, 7], 1);
    accept(&mut session, &[6, 2, 8, 0, 0], 0);
    accept(&mut session, &[6, 2, 3, 0, 0], 0);
    for link in 1..=3 {
        assert_eq!((state(&session, 3), session.dropped), (EventState::Fired, link - 1));
        accept(&mut session, &[9, link], 0);
    }
    assert_eq!((state(&session, 3), session.dropped), (GONE, 3));
}

#[test]
fn a_link_to_itself() {
    for count in 1..=16 {
        let mut session = with_counted(count);
        (1..=count).for_each(|link| accept(&mut session, &[5, 2, 3, 3, 0, 1], link));
        refuse(&mut session, &[5, 2, 3, 3, 0, 1], 24);
        accept(&mut session, &[6, 2, 3, 0, 0], 0);
        for link in 1..=count {
            assert_eq!((state(&session, 3), session.dropped), (EventState::Fired, link - 1));
            accept(&mut session, &[9, link], 0);
        }
        assert_eq!((state(&session, 3), session.dropped), (GONE, count));
    }
}

/// "Destroying an open event cuts its open links."
#[test]
fn destroyed_by_a_call_while_open() {
    for links in 0..=2 {
        let mut session = with_counted(2);
        make_links(&mut session, links);
        accept(&mut session, &[8, 2, 3], 0);
        assert_eq!(state(&session, 3), EventState::Destroyed { had_fired: false });
        assert!(session.links.iter().all(|link| link.state == LinkState::Cut));
        (1..=links).for_each(|link| refuse(&mut session, &[9, link], 16));
        refuse(&mut session, &[5, 2, 3, 4, 0, 1], 11);
    }
}

/// Its ready links still deliver, and it stays destroyed.
#[test]
fn destroyed_by_a_call_while_fired() {
    for links in 0..=2 {
        let mut session = with_counted(2);
        make_links(&mut session, links);
        accept(&mut session, &[6, 2, 3, 1, 0], 0);
        accept(&mut session, &[8, 2, 3], 0);
        assert_eq!(state(&session, 3), GONE);
        refuse(&mut session, &[5, 2, 3, 4, 0, 1], 11);
        for link in 1..=links {
            accept(&mut session, &[9, link], 0);
            assert_eq!((state(&session, 3), session.event(4).unwrap().payload), (GONE, 1));
        }
        refuse(&mut session, &[8, 2, 3], 11);
    }
}

/// "24, one more link from a counted event that already has its count, checked after 14": 14 is for calls that satisfy
/// now, so one event gives the one to these and the other to links. 24 comes before 21.
#[test]
fn the_order_of_24() {
    let mut session = with_counted(1);
    accept(&mut session, &[13, 2, 1], 5);
    accept(&mut session, &[3, 2, 1], 6);
    accept(&mut session, &[6, 2, 6, 0, 0], 0);
    accept(&mut session, &[5, 2, 3, 4, 0, 1], 1);
    accept(&mut session, &[6, 2, 3, 0, 0], 0);
    for link in 2..=2_048 {
        session.links.push(session.links[0]);
        let made = session.links.last_mut().unwrap();
        (made.source, made.state) = (4, LinkState::Open);
        assert_eq!(session.link_count(), link);
    }
    assert!(session.is_sound());
    refuse(&mut session, &[5, 2, 3, 4, 0, 5], 7);
    refuse(&mut session, &[5, 3, 3, 4, 0, 1], 8);
    refuse(&mut session, &[5, 2, 3, 7, 0, 1], 9);
    refuse(&mut session, &[5, 2, 3, 1, 0, 1], 10);
    refuse(&mut session, &[5, 2, 3, 6, 0, 1], 11);
    refuse(&mut session, &[5, 2, 3, 4, 1, 1], 12);
    refuse(&mut session, &[5, 2, 3, 2, 0, 1], 13);
    refuse(&mut session, &[5, 2, 1, 3, 0, 1], 14);
    refuse(&mut session, &[5, 2, 3, 3, 0, 1], 24);
    refuse(&mut session, &[5, 2, 3, 4, 0, 1], 24);
    refuse(&mut session, &[5, 2, 5, 3, 0, 1], 21);
    refuse(&mut session, &[5, 2, 4, 3, 0, 1], 21);
}

/// A counted event where another kind of object is wanted; its one slot.
#[test]
fn kinds_and_slots() {
    let mut session = with_counted(1);
    for call in [&[2, 2, 3, 0, 0, 0][..], &[6, 2, 4, 3, 0], &[7, 2, 3], &[10, 3], &[11, 3], &[12, 3, 0], &[12, 2, 3]] {
        refuse(&mut session, call, 10);
    }
    for slot in [1, 2, 16, u64::MAX] {
        refuse(&mut session, &[6, 2, 3, 0, slot], 12);
        refuse(&mut session, &[5, 2, 0, 3, slot, 1], 12);
        refuse(&mut session, &[5, 2, 4, 3, slot, 1], 12);
    }
}

/// A run over a lent session reads the edition too; a single call has none.
#[test]
fn the_edition_of_a_run_and_of_a_call() {
    let session = running();
    assert_eq!(run_over(&mut session.clone(), &[2, 13, 2, 1, 13, 2, 16]), b"1 0 3\n2 0 4\n");
    assert_eq!(run_over(&mut session.clone(), &[1, 13, 2, 1, 13, 2, 16]), b"1 6 0\n");
    assert_eq!(run_over(&mut session.clone(), &[3, 13, 2, 1]), b"0 5 0\n");
    let (mut one, mut other) = (session.clone(), session);
    assert_eq!(one.apply(&operation(&[13, 2, 16])), Answer { refused: 0, made: 3 });
    assert_eq!(other.apply_checked(&operation(&[13, 2, 16])), Answer { refused: 0, made: 3 });
    assert_eq!(one, other);
}
