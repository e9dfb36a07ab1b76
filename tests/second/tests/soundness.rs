//! Sound sessions stay sound; damaged ones are told.

mod common;

use common::{accept, operation, running};
use second::steer::random_list;
use second::*;

#[test]
fn every_call_leaves_a_sound_session() {
    assert!(Session::fresh().is_sound());
    for (seed, calls) in [(5, 1_500), (7, 4_500)].into_iter().chain((300..340).map(|seed| (seed, 1_000))) {
        let mut list = random_list(seed, calls);
        for _ in 0..calls {
            let before = list.session.clone();
            let (operation, answer) = list.next_call();
            assert!(list.session.is_sound(), "seed {seed}: {operation:?}");
            assert!(answer.refused == 0 || list.session == before, "seed {seed}: {operation:?}");
        }
    }
}

/// One of everything: block 1, main 2, template 3, plain task 4 with output 5 waiting for sticky 6 by link 1, its other
/// slot free, latch 7, block 8 made and held by main, granted task 9 holding block 8, sticky 10 fired with block 1 and
/// link 2 delivered to once 11, link 3 ready, finish task 12 ended with its output 13 fired.
fn sample() -> Session {
    let mut session = running();
    accept(&mut session, &[1, 2, 17], 3);
    accept(&mut session, &[2, 2, 3, 2, 0, 1], 4);
    accept(&mut session, &[3, 2, 3], 6);
    accept(&mut session, &[5, 2, 6, 4, 0, 3], 1);
    accept(&mut session, &[3, 2, 4], 7);
    accept(&mut session, &[4, 2, 1], 8);
    accept(&mut session, &[2, 2, 3, 1, 0, 0], 9);
    accept(&mut session, &[5, 2, 8, 9, 0, 2], 0);
    accept(&mut session, &[10, 9], 0);
    accept(&mut session, &[3, 2, 3], 10);
    accept(&mut session, &[3, 2, 1], 11);
    accept(&mut session, &[6, 2, 10, 1, 0], 0);
    accept(&mut session, &[5, 2, 10, 11, 0, 1], 2);
    accept(&mut session, &[5, 2, 10, 7, 1, 1], 3);
    accept(&mut session, &[9, 2], 0);
    accept(&mut session, &[2, 2, 3, 0, 1, 1], 12);
    accept(&mut session, &[10, 12], 0);
    accept(&mut session, &[11, 12], 0);
    accept(&mut session, &[12, 12, 0], 1);
    session
}

#[track_caller]
fn damage(spoil: impl Fn(&mut Session)) {
    let mut session = sample();
    spoil(&mut session);
    assert!(!session.is_sound());
    let before = session.clone();
    assert_eq!(session.apply_checked(&operation(&[1, 2, 0])), Answer { refused: 2, made: 0 });
    assert_eq!(session, before);
}

#[track_caller]
fn harmless(change: impl Fn(&mut Session)) {
    let mut session = sample();
    change(&mut session);
    assert!(session.is_sound());
}

fn task(session: &mut Session, handle: u64) -> &mut Task {
    session.task_mut(handle).unwrap()
}

fn event(session: &mut Session, handle: u64) -> &mut Event {
    session.event_mut(handle).unwrap()
}

fn block(session: &mut Session, handle: u64) -> &mut Block {
    match session.object_mut(handle) {
        Some(Object::Block(block)) => block,
        _ => panic!("not a block"),
    }
}

#[test]
fn damaged_tasks() {
    for creator in [0, 1, 4, 9, 12, 13, 99, u64::MAX] {
        damage(|session| task(session, 9).creator = creator);
    }
    harmless(|session| task(session, 2).state = TaskState::Running);
    damage(|session| task(session, 2).creator = 2);
    damage(|session| task(session, 2).finish = true);
    damage(|session| task(session, 2).slots[0].mode = Some(Mode::Ro));
    damage(|session| task(session, 2).slots.push(Slot::UNCLAIMED));
    damage(|session| task(session, 4).state = TaskState::Resolved);
    damage(|session| task(session, 4).state = TaskState::Destroyed);
    damage(|session| task(session, 9).state = TaskState::Waiting);
    damage(|session| task(session, 9).state = TaskState::Ended);
    harmless(|session| task(session, 9).state = TaskState::Running);
    damage(|session| task(session, 4).slots = vec![Slot::UNCLAIMED; 17]);
    damage(|session| task(session, 4).slots[1].satisfied = true);
    damage(|session| task(session, 4).slots[0].mode = None);
    damage(|session| task(session, 4).slots[0].payload = 1);
    damage(|session| task(session, 4).slots[1].mode = Some(Mode::Ro));
    damage(|session| task(session, 9).slots[0].payload = 2);
}

#[test]
fn damaged_outputs_and_events() {
    for output in [0, 4, 6, 99] {
        damage(|session| task(session, 4).output = output);
    }
    damage(|session| task(session, 9).output = 10);
    damage(|session| event(session, 5).state = EventState::Fired);
    damage(|session| event(session, 13).state = EventState::Open);
    damage(|session| event(session, 13).state = EventState::Destroyed { had_fired: true });
    damage(|session| event(session, 6).kind = EventType::Output);
    damage(|session| event(session, 6).payload = 1);
    damage(|session| event(session, 10).payload = 2);
    damage(|session| event(session, 10).tally = 1);
    damage(|session| event(session, 7).tally = 32_768);
    damage(|session| event(session, 7).tally = i64::MIN);
    harmless(|session| event(session, 7).tally = -32_767);
    harmless(|session| event(session, 7).state = EventState::Fired);
    harmless(|session| event(session, 10).state = EventState::Destroyed { had_fired: true });
    damage(|session| event(session, 10).state = EventState::Destroyed { had_fired: false });
}

fn make_counted(session: &mut Session, handle: u64, count: u64) {
    let event = event(session, handle);
    (event.kind, event.count) = (EventType::Counted, count);
}

/// The sample with a counted event in place of sticky 10, which has fired, one of its two links delivered; then changed.
fn fired(count: u64, change: impl Fn(&mut Session)) -> impl Fn(&mut Session) {
    move |session| {
        make_counted(session, 10, count);
        change(session);
    }
}

/// The same with sticky 6, which is open and has one link.
fn open(count: u64, change: impl Fn(&mut Session)) -> impl Fn(&mut Session) {
    move |session| {
        make_counted(session, 6, count);
        change(session);
    }
}

/// Both links from event 10.
fn deliver_both(session: &mut Session) {
    session.links[2].state = LinkState::Delivered;
}

fn destroy(session: &mut Session, handle: u64, had_fired: bool) {
    event(session, handle).state = EventState::Destroyed { had_fired };
}

fn as_it_is(_: &mut Session) {}

/// "the count 1 to 16 for type 6 and 0 elsewhere".
#[test]
fn damaged_counts() {
    for count in [2, 3, 16] {
        harmless(fired(count, as_it_is));
    }
    for count in [1, 2, 3, 16] {
        harmless(open(count, as_it_is));
    }
    for count in [0, 17, 18, 1 << 32, u64::MAX] {
        damage(fired(count, as_it_is));
        damage(fired(count, |session| destroy(session, 10, true)));
        damage(open(count, as_it_is));
    }
    // On a sticky, open and fired, a once, a latch and two outputs.
    for (handle, count) in [6, 10, 11, 7, 5, 13].into_iter().flat_map(|handle| [(handle, 1), (handle, 16)]) {
        damage(|session| event(session, handle).count = count);
    }
}

/// "no counted event with more links than its count, and one with that many delivered is destroyed".
#[test]
fn damaged_links_of_counted_events() {
    // Two links, one of them delivered.
    damage(fired(1, as_it_is));
    damage(fired(1, |session| destroy(session, 10, true)));
    harmless(fired(2, |session| destroy(session, 10, true)));
    // Two links, both delivered: fired is sound with one more to come.
    damage(fired(2, deliver_both));
    harmless(fired(3, deliver_both));
    for (count, had_fired) in [(1, true), (1, false), (2, false), (3, false)] {
        damage(fired(count, |session| {
            deliver_both(session);
            destroy(session, 10, had_fired);
        }));
    }
    for count in [2, 3] {
        harmless(fired(count, |session| {
            deliver_both(session);
            destroy(session, 10, true);
        }));
    }
    // Sixteen links, and one more.
    harmless(fired(16, |session| session.links.resize(17, session.links[2])));
    damage(fired(16, |session| session.links.resize(18, session.links[2])));
    // All but one delivered, then all.
    harmless(fired(16, |session| session.links.resize(17, session.links[1])));
    damage(fired(16, |session| {
        session.links.resize(17, session.links[1]);
        deliver_both(session);
    }));
    // Links to it are none from it.
    harmless(fired(2, |session| {
        *event(session, 11) = Event::open(EventType::Once);
        let to_it = Link { source: 11, destination: 10, slot: 0, state: LinkState::Open };
        session.links.resize(20, to_it);
    }));
}

/// All other rules for a counted event are those of a sticky.
#[test]
fn counted_events_are_stickies_otherwise() {
    damage(fired(2, |session| event(session, 10).payload = 2));
    damage(fired(2, |session| event(session, 10).tally = 1));
    damage(fired(2, |session| event(session, 10).state = EventState::Open));
    damage(open(1, |session| event(session, 6).state = EventState::Fired));
    damage(open(1, |session| event(session, 6).payload = 1));
    damage(open(1, |session| destroy(session, 6, false)));
    harmless(open(1, |session| {
        destroy(session, 6, false);
        session.links[0].state = LinkState::Cut;
    }));
    // Its slot is 0; the sample's link goes to slot 1 of a latch.
    damage(fired(2, |session| session.links[2].destination = 10));
    harmless(fired(2, |session| (session.links[2].destination, session.links[2].slot) = (10, 0)));
    // It is no output event.
    damage(|session| make_counted(session, 5, 1));
    damage(|session| make_counted(session, 13, 1));
}

#[test]
fn damaged_blocks_and_holds() {
    damage(|session| block(session, 1).creator = 2);
    damage(|session| block(session, 8).creator = 0);
    damage(|session| block(session, 8).creator = 3);
    damage(|session| block(session, 8).state = BlockState::Destroyed);
    harmless(|session| block(session, 8).state = BlockState::Doomed);
    damage(|session| session.holds.push(session.holds[0]));
    damage(|session| session.holds.retain(|hold| hold.task != 9));
    harmless(|session| session.holds.retain(|hold| hold.task != 2));
    damage(|session| session.holds[0].task = 4);
    damage(|session| session.holds[0].block = 8);
    damage(|session| session.holds[0].mode = Mode::Ew);
    damage(|session| session.holds[0].place = Place::Slot(1));
    damage(|session| session.holds.push(Hold { task: 9, block: 8, mode: Mode::Rw, place: Place::Made }));
    damage(|session| {
        // The hold of task 9 in EW beside that of main.
        task(session, 9).slots[0].mode = Some(Mode::Ew);
        session.holds.iter_mut().filter(|hold| hold.task == 9).for_each(|hold| hold.mode = Mode::Ew);
    });
}

#[test]
fn damaged_links_and_numbers() {
    damage(|session| session.links[0].source = 4);
    damage(|session| session.links[0].source = 0);
    damage(|session| session.links[0].destination = 5);
    damage(|session| session.links[0].destination = 1);
    damage(|session| session.links[0].slot = 2);
    damage(|session| session.links[0].slot = 1);
    damage(|session| session.links[1].slot = 1);
    harmless(|session| session.links[2].slot = 0);
    damage(|session| session.links[0].state = LinkState::Ready);
    damage(|session| session.links[0].state = LinkState::Cut);
    damage(|session| session.links[1].state = LinkState::Open);
    damage(|session| session.links.push(session.links[0]));
    damage(|session| session.links.resize(2_049, session.links[2]));
    harmless(|session| session.links.resize(2_048, session.links[2]));
    harmless(|session| session.dropped = 1);
    damage(|session| session.dropped = 2);
    damage(|session| session.objects[2] = Object::Template(Template { destroyed: false, count: 18 }));
    damage(|session| session.objects.swap(0, 7));
    damage(|session| session.objects.resize(513, session.objects[2].clone()));
    harmless(|session| session.objects.resize(512, session.objects[2].clone()));
    damage(|session| session.objects.clear());
}

/// Readings 6 and 16. A destroyed task may have a satisfied slot and a ready link to it by the letter of "A sound
/// session"; the delivery of that link leaves a slot with another payload than its source's.
#[test]
fn runs_over_a_lent_session() {
    let mut session = sample();
    event(&mut session, 6).state = EventState::Fired;
    session.links[0].state = LinkState::Ready;
    let destroyed = task(&mut session, 4);
    destroyed.state = TaskState::Destroyed;
    destroyed.slots[0] = Slot { mode: Some(Mode::Ew), satisfied: true, payload: 1 };
    event(&mut session, 5).state = EventState::Destroyed { had_fired: false };
    assert!(session.is_sound());
    assert_eq!(run_over(&mut session.clone(), &[1, 9, 1]), b"1 0 0\n");
    assert_eq!(run_over(&mut session.clone(), &[1, 9, 9, 9, 1, 99]), b"1 9 0\n2 0 0\n3 2 0\n");
    assert_eq!(session.apply_checked(&operation(&[9, 1])), Answer { refused: 0, made: 0 });
    assert_eq!(run_over(&mut session, &[2]), b"0 2 0\n");
}
