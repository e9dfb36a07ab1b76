//! Counted events in random lists of edition 2: soundness by brute force, what a call may change, and what the lists
//! bring up.

use std::collections::BTreeMap;

use second::random::Random;
use second::steer::{random_list, Steer};
use second::*;

/// Lists with every goal but the latch's, which takes too long here.
fn lists() -> impl Iterator<Item = (Steer, u64)> {
    let lengths = [(5, 2_000), (7, 6_000), (19, 6_000)].into_iter().chain((400..440).map(|seed| (seed, 1_000)));
    lengths.map(|(seed, calls)| (random_list(seed, calls).in_edition(Edition::Second), calls))
}

fn events(session: &Session) -> impl Iterator<Item = (u64, &Event)> {
    (1..).zip(&session.objects).filter_map(|(handle, object)| match object {
        Object::Event(event) => Some((handle, event)),
        _ => None,
    })
}

/// The rules for counts, one event and one link after the other.
fn counts_hold(session: &Session) -> bool {
    for (handle, event) in events(session) {
        let (mut made, mut delivered) = (0, 0);
        for link in &session.links {
            if link.source == handle {
                made += 1;
                delivered += u64::from(link.state == LinkState::Delivered);
            }
        }
        let destroyed = event.state != EventState::Open && event.state != EventState::Fired;
        let holds = match (event.kind, event.count) {
            (EventType::Counted, 1..=16) => made <= event.count && (delivered != event.count || destroyed),
            (EventType::Counted, _) => false,
            (_, count) => count == 0,
        };
        if !holds {
            return false;
        }
    }
    true
}

/// The same session with stickies in place of counted events: "All other rules for it are those of a sticky."
fn as_stickies(session: &Session) -> Session {
    let mut session = session.clone();
    for object in &mut session.objects {
        if let Object::Event(event) = object {
            event.count = 0;
            if event.kind == EventType::Counted {
                event.kind = EventType::Sticky;
            }
        }
    }
    session
}

fn is_sound_by_hand(session: &Session) -> bool {
    counts_hold(session) && as_stickies(session).is_sound()
}

#[test]
fn every_call_leaves_a_sound_session() {
    for (mut list, calls) in lists() {
        for _ in 0..calls {
            let before = list.session.clone();
            let (operation, answer) = list.next_call();
            assert!(list.session.is_sound() && is_sound_by_hand(&list.session), "{operation:?}");
            assert!(answer.refused == 0 || list.session == before, "{operation:?}");
        }
    }
}

/// Change an event or a link in a way that concerns counts, or may.
fn damage(session: &mut Session, random: &mut Random) {
    let handles: Vec<u64> = events(session).map(|(handle, _)| handle).collect();
    let link = random.below(session.link_count()) as usize;
    let event = session.event_mut(random.among(&handles)).unwrap();
    let had_fired = random.percent(50);
    match random.below(6) {
        0 => event.count = random.among(&[0, 1, 2, 3, 15, 16, 17, u64::MAX]),
        1 => event.kind = random.among(&[EventType::Sticky, EventType::Counted]),
        2 => event.state = random.among(&[EventState::Fired, EventState::Destroyed { had_fired }]),
        3 => session.links[link].state = random.among(&[LinkState::Ready, LinkState::Delivered]),
        4 => session.links[link].source = random.among(&handles),
        _ => session.links.push(session.links[link]),
    }
}

/// Whether a session is sound is the same by brute force, in damaged sessions too.
#[test]
fn soundness_by_brute_force() {
    let mut random = Random::new(24);
    let (mut sound, mut unsound, mut by_counts) = (0, 0, 0);
    for (mut list, calls) in lists() {
        for call in 0..calls {
            list.next_call();
            if call % 4 != 0 || list.session.links.is_empty() {
                continue;
            }
            let mut session = list.session.clone();
            (0..1 + random.below(2)).for_each(|_| damage(&mut session, &mut random));
            assert_eq!(session.is_sound(), is_sound_by_hand(&session));
            match (session.is_sound(), as_stickies(&session).is_sound()) {
                (true, _) => sound += 1,
                (false, true) => by_counts += 1,
                _ => unsound += 1,
            }
        }
    }
    println!("sound {sound}, unsound {unsound}, by the counts alone {by_counts}");
    assert!(sound > 500 && unsound > 500 && by_counts > 500);
}

/// What a call did that has to do with counted events, by name.
#[derive(Default)]
struct Turns {
    shown: BTreeMap<String, u64>,
}

fn shown_count(count: u64) -> String {
    match count {
        1 | 2 | 3 | 16 => format!("count {count}"),
        _ => "another count".to_string(),
    }
}

/// An operation with the session that it met.
struct Met<'a> {
    before: &'a Session,
    fields: [u64; 5],
    code: u64,
}

impl Met<'_> {
    fn counted(&self, handle: u64) -> Option<&Event> {
        self.before.event(handle).filter(|event| event.kind == EventType::Counted)
    }

    /// Gone with its count of links delivered.
    fn has_gone_by_itself(&self, handle: u64) -> bool {
        self.counted(handle).is_some_and(|event| event.is_gone() && self.before.delivered_from(handle) == event.count)
    }

    fn has_ready_link(&self, source: u64) -> bool {
        self.before.links.iter().any(|link| link.source == source && link.state == LinkState::Ready)
    }

    fn has_open_link(&self, source: u64) -> bool {
        self.before.links.iter().any(|link| link.source == source && link.state == LinkState::Open)
    }
}

impl Turns {
    fn show(&mut self, name: impl Into<String>, shown: bool) {
        *self.shown.entry(name.into()).or_default() += u64::from(shown);
    }

    fn count_refused(&mut self, met: &Met, refused: u32) {
        let [_, source, destination, ..] = met.fields;
        let (link, satisfy, destroy) = (met.code == 5, met.code == 6, met.code == 8);
        let state = |handle| met.counted(handle).map(|event| event.state);
        match refused {
            7 | 8 | 20 => self.show(format!("operation 13 gives {refused}"), met.code == 13),
            11 => {
                self.show("11 as source", link && met.has_gone_by_itself(source));
                self.show("11 as destination of a link", {
                    link && met.before.event(source).is_some() && met.has_gone_by_itself(destination)
                });
                self.show("11 as destination now", {
                    link && met.before.event(source).is_none() && met.has_gone_by_itself(destination)
                });
                self.show("11 satisfied", satisfy && met.has_gone_by_itself(source));
                self.show("11 destroyed", destroy && met.has_gone_by_itself(source));
            }
            12 => self.show("12 for its slot 1", satisfy && met.counted(source).is_some()),
            14 => {
                self.show("14 by satisfy", satisfy && met.counted(source).is_some());
                self.show("14 by dependence", link && met.counted(destination).is_some());
            }
            21 => self.show("21 with room", met.counted(source).is_some()),
            24 => {
                self.show("24 from an open one", state(source) == Some(EventState::Open));
                self.show("24 from a fired one", state(source) == Some(EventState::Fired));
                self.show("24 to itself", source == destination);
                self.show("24 to a task", met.before.task(destination).is_some());
                self.show("24 with all links made", met.before.link_count() == 2_048);
            }
            _ => (),
        }
    }

    fn count_accepted(&mut self, met: &Met, after: &Session) {
        let [first, second, third, ..] = met.fields;
        match met.code {
            5 => {
                self.show("link from a fired one", {
                    met.counted(second).is_some_and(|event| event.state == EventState::Fired)
                });
                self.show("link to one", met.counted(third).is_some() && met.before.event(second).is_some());
                self.show("chain of two", met.counted(second).is_some() && met.counted(third).is_some());
            }
            6 => self.show("satisfied", met.counted(second).is_some()),
            8 => self.count_destroyed(met, second),
            9 => self.count_delivered(met, first, after),
            13 => self.show(format!("made with {}", shown_count(second)), true),
            _ => (),
        }
    }

    fn count_destroyed(&mut self, met: &Met, handle: u64) {
        let Some(event) = met.counted(handle) else { return };
        let open = event.state == EventState::Open;
        self.show("destroyed open with links", open && met.has_open_link(handle));
        self.show("destroyed fired with ready links", !open && met.has_ready_link(handle));
        self.show("destroyed fired without", !open && !met.has_ready_link(handle));
    }

    fn count_delivered(&mut self, met: &Met, number: u64, after: &Session) {
        let Link { source, destination, .. } = *met.before.link(number).unwrap();
        let dropped = after.dropped > met.before.dropped;
        if let Some(event) = met.counted(destination) {
            self.show("fired by a delivery", !dropped);
            self.show("a second delivery dropped", dropped && event.state == EventState::Fired);
            self.show("a delivery to a gone one dropped", dropped && event.is_gone());
        }
        let Some(event) = met.counted(source) else { return };
        let gone = !event.is_gone() && after.event(source).unwrap().is_gone();
        self.show("delivered from a destroyed one", event.is_gone());
        self.show("count reached by a destroyed one", event.is_gone() && after.delivered_from(source) == event.count);
        self.show("dropped, and there still", dropped && !event.is_gone() && !gone);
        self.show("dropped, and gone with it", dropped && gone);
        self.show("to itself, and there still", source == destination && !event.is_gone() && !gone);
        self.show("to itself, and gone with it", source == destination && gone);
        if gone {
            self.show(format!("gone with {}", shown_count(event.count)), true);
        }
    }
}

/// All that counted events are for comes up.
#[test]
fn what_lists_of_edition_2_show() {
    let mut turns = Turns::default();
    for (mut list, calls) in lists() {
        for _ in 0..calls {
            let before = list.session.clone();
            let (operation, answer) = list.next_call();
            let met = Met { before: &before, fields: operation.fields, code: operation.code };
            match answer.refused {
                0 => turns.count_accepted(&met, &list.session),
                refused => turns.count_refused(&met, refused),
            }
        }
    }
    turns.shown.iter().for_each(|(name, count)| println!("{count:6} {name}"));
    assert!(turns.shown.values().all(|count| *count >= 10));
    assert_eq!(turns.shown.len(), 43);
}

/// What becomes of a counted event: open, fired, destroyed, and never back. It goes only in a destroy that names it or
/// in the delivery that brings its count; its count stays, and its payload once it has fired.
#[test]
fn how_a_counted_event_changes() {
    for (mut list, calls) in lists() {
        for _ in 0..calls {
            let before = list.session.clone();
            let (operation, answer) = list.next_call();
            for (handle, event) in events(&before).filter(|(_, event)| event.kind == EventType::Counted) {
                let after = list.session.event(handle).unwrap();
                let named = operation.code == 8 && operation.fields[1] == handle;
                let served = operation.code == 9
                    && before.link(operation.fields[0]).is_some_and(|link| link.source == handle)
                    && list.session.delivered_from(handle) == event.count;
                let goes = answer.refused == 0 && !event.is_gone() && (named || served);
                assert_eq!(after.is_gone(), event.is_gone() || goes, "{operation:?}");
                assert_eq!((after.kind, after.count), (event.kind, event.count));
                assert!(!event.has_fired() || after.has_fired() && after.payload == event.payload);
                assert!(!event.is_gone() || after == event);
            }
        }
    }
}
