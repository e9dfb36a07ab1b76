//! Sessions that are sound by the letter of document 01, and a call that leaves one that is not (docs/DECISIONS.md,
//! "Kept").

use compare::pair::{Pair, Through};
use compare::runs;
use compare::words::{is_sound, to_words};
use compare::Memory;
use second::steer::random_list;
use second::*;

/// Calls that make event 5: a sticky, and a counted one for one link.
const STICKY: [u64; 3] = [3, 2, 3];
const COUNTED: [u64; 3] = [13, 2, 1];

/// Task 4 is destroyed, its slot satisfied with block 1, and a ready link from event 5 with payload 0 leads to it.
fn unsettled(event: [u64; 3]) -> Session {
    let mut session = Session::fresh();
    for numbers in
        [&[10, 2][..], &[11, 2], &[1, 2, 1], &[2, 2, 3, 17, 0, 0], &event, &[5, 2, 5, 4, 0, 1], &[6, 2, 5, 0, 0]]
    {
        assert_eq!(session.apply(&Operation::new(numbers[0], &numbers[1..])).refused, 0, "{numbers:?}");
    }
    let task = session.task_mut(4).unwrap();
    task.state = TaskState::Destroyed;
    task.slots[0] = Slot { mode: Some(Mode::Ro), satisfied: true, payload: 1 };
    session
}

#[test]
fn the_next_call_is_refused_with_2() {
    for (event, gone) in [(STICKY, false), (COUNTED, true)] {
        let mut pair = Pair::of(unsettled(event));
        assert!(pair.memory.sound() && pair.second.is_sound());
        let deliver = Operation::new(9, &[1]);
        assert_eq!(pair.call(&deliver, Through::Apply), Answer { refused: 0, made: 0 });
        assert_eq!(pair.second.event(5).unwrap().is_gone(), gone);
        assert!(!pair.memory.sound() && !is_sound(pair.memory.words()));
        for code in 0..=14 {
            assert_eq!(pair.call(&Operation::new(code, &[2, 1]), Through::Apply), Answer { refused: 2, made: 0 });
        }
    }
}

/// A task with a ready link to it is destroyed, and its slot then satisfied behind the engine's back, with
/// the payload given or else the source's; the number of the link.
fn unsettle(session: &mut Session, payload: Option<u64>) -> Option<u64> {
    let caller = session.tasks().find(|(_, task)| task.state == TaskState::Running)?.0;
    let waits = |task: &Task| task.state == TaskState::Waiting;
    let leads = |link: &Link| link.state == LinkState::Ready && session.task(link.destination).is_some_and(waits);
    let number = session.links.iter().position(leads)?;
    let Link { source, destination, slot, .. } = session.links[number];
    let payload = payload.or(session.event(source).map(|source| source.payload))?;
    assert_eq!(session.apply(&Operation::new(8, &[caller, destination])).refused, 0);
    let slot = &mut session.task_mut(destination)?.slots[slot as usize];
    (slot.satisfied, slot.payload) = (true, payload);
    Some(number as u64 + 1)
}

/// Delivered, such a link leaves a sound session exactly if the slot has its source's payload.
#[test]
fn in_random_sessions() {
    let mut found = [0, 0];
    for (seed, edition) in (0..60).flat_map(|seed| [Edition::First, Edition::Second].map(|edition| (seed, edition))) {
        let mut list = random_list(seed, 400).in_edition(edition);
        for _ in 0..300 {
            list.next_call();
        }
        for payload in [Some(0), Some(1), None] {
            let mut session = list.session.clone();
            let Some(number) = unsettle(&mut session, payload) else { continue };
            let mut pair = Pair::of(session);
            assert!(pair.memory.sound() && pair.second.is_sound());
            assert_eq!(pair.call(&Operation::new(9, &[number]), Through::Apply).refused, 0);
            let sound = pair.second.is_sound();
            assert_eq!(pair.memory.sound(), sound, "seed {seed}");
            let refused = pair.call(&Operation::new(14, &[]), Through::Apply).refused;
            assert_eq!(refused, if sound { 6 } else { 2 }, "seed {seed}");
            found[usize::from(sound)] += 1;
        }
    }
    println!("unsound and sound after it: {found:?}");
    assert!(found[0] > 0 && found[1] > 0);
}

/// A run looks at such a session at each record: the delivery is accepted, and the next record meets 2.
#[test]
fn a_run_looks_again() {
    for (event, edition) in [(STICKY, 1), (STICKY, 2), (COUNTED, 1), (COUNTED, 2)] {
        let mut words = to_words(&unsettled(event));
        let mut memory = Memory::new(words.clone());
        let sheet = [edition, 9, 1, 7, 2, 0];
        let (mut lines, mut wanted) = ([0; 100], [0; 100]);
        let ended = memory.run(&sheet, &mut lines, 0);
        assert_eq!(&lines[..ended.used], b"1 0 0\n2 2 0\n");
        assert_eq!(ended, runs::run(&mut words, &sheet, &mut wanted, 0));
        assert!(lines == wanted && memory.words() == words);
    }
}
