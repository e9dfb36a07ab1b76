//! Counted events by hand: what a sound session may have of them, by document 02 alone, and near misses.

use compare::judge::Judge;
use compare::layout::Field;
use compare::words::to_words;
use second::*;

const GONE: EventState = EventState::Destroyed { had_fired: true };
const NEVER_FIRED: EventState = EventState::Destroyed { had_fired: false };

/// Block 1, main 2, a counted event 3 of that count and state, an idempotent event 4, and links from 3 to 4: so many, and
/// so many of them delivered, in the states that go with the event's.
fn with_counted(count: u64, state: EventState, links: u64, served: u64) -> Session {
    let mut session = Session::fresh();
    session.objects.push(Object::Event(Event { state, ..Event::counted(count) }));
    session.objects.push(Object::Event(Event::open(EventType::Idempotent)));
    for number in 0..links {
        let state = match state {
            EventState::Open => LinkState::Open,
            NEVER_FIRED => LinkState::Cut,
            _ if number < served => LinkState::Delivered,
            _ => LinkState::Ready,
        };
        session.links.push(Link { source: 3, destination: 4, slot: 0, state });
    }
    session
}

/// Judges them, and is told whether they are sound.
struct Held {
    judge: Judge,
}

impl Held {
    fn new(seed: u64) -> Held {
        Held { judge: Judge::new(seed).in_edition(Edition::Second) }
    }

    /// Both engines find the words sound exactly if they are to be.
    #[track_caller]
    fn hold(&mut self, words: &[u64], sound: bool) {
        let before = self.judge.found.sound;
        self.judge.judge(words);
        assert_eq!(self.judge.found.sound > before, sound, "both engines say otherwise");
    }
}

/// "A sound session has no counted event with more links than its count, and one with that many delivered is
/// destroyed", and a count is 1 to 16: every count, number of links and number delivered about that range.
#[test]
fn counts_and_links() {
    let mut held = Held::new(7);
    for (count, links) in (0..=18).flat_map(|count| (0..=18).map(move |links| (count, links))) {
        let fits = (1..=16).contains(&count) && links <= count;
        held.hold(&to_words(&with_counted(count, EventState::Open, links, 0)), fits);
        held.hold(&to_words(&with_counted(count, NEVER_FIRED, links, 0)), fits);
        for served in 0..=links {
            let stays = fits && served < count;
            held.hold(&to_words(&with_counted(count, EventState::Fired, links, served)), stays);
            held.hold(&to_words(&with_counted(count, GONE, links, served)), fits);
        }
    }
    println!("{:?}", held.judge.found);
}

/// Numbers that are no counts, and come back into range where they are cut to fewer bits.
#[test]
fn counts_of_any_size() {
    let mut held = Held::new(8);
    let mut words = to_words(&with_counted(3, EventState::Open, 3, 0));
    let near = (0..64).chain([255, 256, 258, 512, 2_048, 65_536, 65_538]);
    let wide = [32, 33, 48, 63].into_iter().flat_map(|bit| [1 << bit, (1 << bit) + 3, (1 << bit) + 16]);
    for count in near.chain(wide).chain((0..20).map(|less| u64::MAX - less)) {
        words[Field::EventCount.at(3)] = count;
        held.hold(&words, (3..=16).contains(&count));
    }
}

/// Only an event of type 6 has a count: none of another type or kind, none at place 0, none past the last object.
#[test]
fn counts_elsewhere() {
    let mut held = Held::new(9);
    for count in [1, 2, 16, 17, u64::MAX] {
        for kind in [EventType::Once, EventType::Idempotent, EventType::Sticky, EventType::Latch] {
            let mut session = with_counted(3, EventState::Open, 2, 0);
            *session.event_mut(3).unwrap() = Event { count, ..Event::open(kind) };
            held.hold(&to_words(&session), false);
            session.event_mut(3).unwrap().count = 0;
            held.hold(&to_words(&session), true);
        }
        let whole = to_words(&with_counted(3, EventState::Open, 2, 0));
        for place in [0, 1, 2, 4, 5, 512] {
            let mut words = whole.clone();
            words[Field::EventCount.at(place)] = count;
            held.hold(&words, false);
            words[Field::EventType.at(place)] = 6;
            held.hold(&words, place == 4 && count <= 16);
        }
    }
}

/// An object of another kind with what a counted event has; and a counted event's words under another kind.
#[test]
fn other_kinds() {
    let mut held = Held::new(10);
    let whole = to_words(&with_counted(3, EventState::Open, 0, 0));
    for kind in (0..6).chain([1 << 32, u64::MAX]) {
        let mut words = whole.clone();
        words[Field::Kind.at(3)] = kind;
        held.hold(&words, kind == 3);
    }
    for place in [1, 2] {
        for (field, number) in [(Field::EventState, 1), (Field::EventType, 6), (Field::EventCount, 3)] {
            let mut words = whole.clone();
            words[field.at(place)] = number;
            held.hold(&words, false);
        }
    }
}

/// "a payload 0 or a block", of one that has fired alone; and it counts no satisfactions as a latch does.
#[test]
fn payloads_and_tallies() {
    let mut held = Held::new(11);
    for state in [EventState::Open, EventState::Fired, NEVER_FIRED, GONE] {
        for payload in [0, 1, 2, 3, 4, 5, u64::MAX] {
            let mut session = with_counted(2, state, 2, 1);
            session.event_mut(3).unwrap().payload = payload;
            let has_fired = state == EventState::Fired || state == GONE;
            held.hold(&to_words(&session), payload == 0 || payload == 1 && has_fired);
        }
        for tally in [1, 32_766, 32_767, 32_768] {
            let mut session = with_counted(2, state, 2, 1);
            session.event_mut(3).unwrap().tally = tally;
            held.hold(&to_words(&session), false);
        }
    }
}

/// Its links are open, cut, or ready and delivered as it is open, destroyed unfired, or fired: each state beside each.
#[test]
fn states_of_its_links() {
    let mut held = Held::new(12);
    let states = [LinkState::Open, LinkState::Ready, LinkState::Delivered, LinkState::Cut];
    for event in [EventState::Open, EventState::Fired, NEVER_FIRED, GONE] {
        for (one, other) in states.iter().flat_map(|one| states.iter().map(move |other| (*one, *other))) {
            let mut session = with_counted(2, event, 2, 0);
            session.links[0].state = one;
            session.links[1].state = other;
            let suits = |link: LinkState| match link {
                LinkState::Open => event == EventState::Open,
                LinkState::Cut => event == NEVER_FIRED,
                _ => event == EventState::Fired || event == GONE,
            };
            let both = one == LinkState::Delivered && other == LinkState::Delivered;
            let sound = suits(one) && suits(other) && !(both && event == EventState::Fired);
            held.hold(&to_words(&session), sound);
        }
    }
}

/// "It has slot 0": links to it, and one from it to itself.
#[test]
fn links_to_one() {
    let mut held = Held::new(13);
    for (source, slot) in [3, 4].into_iter().flat_map(|source| (0..3).map(move |slot| (source, slot))) {
        let mut session = with_counted(1, EventState::Open, 0, 0);
        session.links.push(Link { source, destination: 3, slot, state: LinkState::Open });
        held.hold(&to_words(&session), slot == 0);
    }
}

/// Two counted events, each with its own count: links of one are none of the other's.
#[test]
fn each_its_own() {
    let mut held = Held::new(14);
    for (first, second) in (0..6).flat_map(|first| (0..6).map(move |second| (first, second))) {
        let mut session = with_counted(3, EventState::Open, first, 0);
        session.objects.push(Object::Event(Event::counted(2)));
        let link = Link { source: 5, destination: 4, slot: 0, state: LinkState::Open };
        session.links.extend((0..second).map(|_| link));
        held.hold(&to_words(&session), first <= 3 && second <= 2);
    }
}

/// A counted event is no output event, and an output event no counted one.
#[test]
fn behind_a_task() {
    let mut held = Held::new(15);
    let mut session = Session::fresh();
    for numbers in [&[10, 2][..], &[11, 2], &[1, 2, 1], &[2, 2, 3, 17, 0, 1], &[13, 2, 1]] {
        assert_eq!(session.apply(&Operation::new(numbers[0], &numbers[1..])).refused, 0, "{numbers:?}");
    }
    held.hold(&to_words(&session), true);
    for (handle, event) in [(5, Event::counted(1)), (6, Event::open(EventType::Output))] {
        let mut changed = session.clone();
        *changed.event_mut(handle).unwrap() = event;
        held.hold(&to_words(&changed), false);
    }
}
