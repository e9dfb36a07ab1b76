//! Sessions changed in several places that fit together: sound ones that no list comes to, and near misses.

use compare::damage::reached;
use compare::judge::Judge;
use compare::pair::{Pair, Through};
use compare::words::to_words;
use second::random::Random;
use second::*;

const TASK_STATES: [TaskState; 6] = [
    TaskState::Waiting,
    TaskState::Resolved,
    TaskState::Granted,
    TaskState::Running,
    TaskState::Ended,
    TaskState::Destroyed,
];
const EVENT_STATES: [EventState; 4] = [
    EventState::Open,
    EventState::Fired,
    EventState::Destroyed { had_fired: false },
    EventState::Destroyed { had_fired: true },
];
const BLOCK_STATES: [BlockState; 3] = [BlockState::Live, BlockState::Doomed, BlockState::Destroyed];
const MODES: [Option<Mode>; 5] = [None, Some(Mode::Ro), Some(Mode::Rw), Some(Mode::Ew), Some(Mode::Const)];
const KINDS: [EventType; 5] =
    [EventType::Once, EventType::Idempotent, EventType::Sticky, EventType::Latch, EventType::Counted];

fn draw_block(random: &mut Random, session: &Session) -> u64 {
    let blocks: Vec<u64> = (0..=session.object_count()).filter(|h| *h == 0 || session.block(*h).is_some()).collect();
    random.among(&blocks)
}

/// One field of one object or link becomes something else of its kind.
fn change(random: &mut Random, session: &mut Session) {
    let (objects, links) = (session.object_count(), session.link_count());
    let (handle, payload) = (1 + random.below(objects), draw_block(random, session));
    if links > 0 && random.percent(15) {
        let link = &mut session.links[random.below(links) as usize];
        match random.below(3) {
            0 => link.source = handle,
            1 => (link.destination, link.slot) = (handle, random.below(3)),
            _ => link.state = random.among(&[LinkState::Ready, LinkState::Delivered]),
        }
        return;
    }
    match session.object_mut(handle) {
        Some(Object::Template(template)) => template.count = random.below(18),
        Some(Object::Task(task)) => change_task(random, task, handle, payload),
        Some(Object::Event(event)) => change_event(random, event, payload),
        Some(Object::Block(block)) => match random.below(3) {
            0 => block.creator = 1 + random.below(objects),
            _ => block.state = random.among(&BLOCK_STATES),
        },
        None => (),
    }
}

fn change_event(random: &mut Random, event: &mut Event, payload: u64) {
    match (random.below(4), event.kind) {
        (0, _) => event.payload = payload,
        (3, EventType::Latch) => event.tally = random.among(&[-32_767, -32_766, -1, 1, 32_766, 32_767]),
        (3, EventType::Counted) => event.count = 1 + random.below(16),
        (1, kind) if kind != EventType::Output => event.kind = random.among(&KINDS),
        _ => event.state = random.among(&EVENT_STATES),
    }
}

fn change_task(random: &mut Random, task: &mut Task, handle: u64, payload: u64) {
    let slots = task.slots.len() as u64;
    match random.below(8) {
        0 => task.finish = !task.finish,
        1 => task.output = if task.output == 0 { handle + 1 } else { 0 },
        2 => task.slots.resize(random.below(17) as usize, Slot::UNCLAIMED),
        3 | 4 => task.state = random.among(&TASK_STATES),
        _ if slots > 0 => {
            let slot = &mut task.slots[random.below(slots) as usize];
            *slot = Slot { mode: random.among(&MODES), satisfied: random.percent(70), payload };
        }
        _ => task.creator = random.below(handle),
    }
}

/// Make what depends on other things agree with them again; now and then one of it is forgotten.
fn mend(random: &mut Random, session: &mut Session) {
    let forgotten = random.below(30);
    mend_outputs(session);
    mend_links(session);
    if forgotten != 0 {
        mend_slots(session);
    }
    if forgotten != 1 {
        mend_outputs(session);
    }
    if forgotten != 2 {
        mend_links(session);
    }
    if forgotten != 3 {
        mend_holds(random, session);
    }
    if forgotten > 5 {
        mend_blocks(session);
    }
    if forgotten < 27 {
        mend_counts(random, session);
    }
    let delivered = session.links.iter().filter(|link| link.state == LinkState::Delivered).count() as u64;
    session.dropped = session.dropped.min(delivered);
}

fn mend_outputs(session: &mut Session) {
    let below = session.live_below();
    let tasks: Vec<(u64, Task)> = session.tasks().map(|(handle, task)| (handle, task.clone())).collect();
    for (handle, task) in tasks {
        let Some(event) = session.event_mut(task.output) else { continue };
        event.kind = EventType::Output;
        event.state = match task.state {
            TaskState::Ended if !(task.finish && below[handle as usize - 1]) => EventState::Fired,
            TaskState::Destroyed => EventState::Destroyed { had_fired: false },
            _ => EventState::Open,
        };
    }
    for object in &mut session.objects {
        let Object::Event(event) = object else { continue };
        if !event.has_fired() {
            event.payload = 0;
        }
        if event.kind != EventType::Latch || event.has_fired() {
            event.tally = 0;
        }
    }
}

fn mend_links(session: &mut Session) {
    for place in 0..session.links.len() {
        let link = session.links[place];
        let Some(source) = session.event(link.source) else { continue };
        session.links[place].state = match (source.state, link.state) {
            (EventState::Open, _) => LinkState::Open,
            (EventState::Destroyed { had_fired: false }, _) => LinkState::Cut,
            (_, LinkState::Delivered) => LinkState::Delivered,
            _ => LinkState::Ready,
        };
    }
}

/// A slot is as its link says, and a task's state as its slots say.
fn mend_slots(session: &mut Session) {
    for handle in 2..=session.object_count() {
        let Some(mut task) = session.task(handle).cloned() else { continue };
        for (place, slot) in (0..).zip(&mut task.slots) {
            let link = session.links.iter().find(|link| link.destination == handle && link.slot == place);
            let source = link.and_then(|link| session.event(link.source)).map_or(0, |source| source.payload);
            match link.map(|link| link.state) {
                Some(LinkState::Delivered) => (slot.satisfied, slot.payload) = (true, source),
                Some(_) if task.state != TaskState::Destroyed => (slot.satisfied, slot.payload) = (false, 0),
                None => slot.satisfied = slot.mode.is_some(),
                _ => (),
            }
            if !slot.satisfied {
                slot.payload = 0;
            } else if slot.mode.is_none() {
                slot.mode = Some(Mode::Ro);
            }
        }
        task.state = match (task.all_satisfied(), task.state) {
            (_, TaskState::Destroyed) => TaskState::Destroyed,
            (true, TaskState::Waiting) => TaskState::Resolved,
            (true, state) => state,
            (false, _) => TaskState::Waiting,
        };
        session.objects[handle as usize - 1] = Object::Task(task);
    }
}

/// A granted task holds all, a running one some, others none.
fn mend_holds(random: &mut Random, session: &mut Session) {
    let mut holds = vec![];
    for (handle, task) in session.tasks() {
        let share = match task.state {
            TaskState::Granted => 100,
            TaskState::Running => 70,
            _ => 0,
        };
        holds.extend(session.wanted_holds(handle).into_iter().filter(|_| random.percent(share)));
    }
    for (block, object) in (1..).zip(&session.objects) {
        let Object::Block(Block { creator, .. }) = *object else { continue };
        if session.task(creator).is_some_and(|task| task.state == TaskState::Running) && random.percent(40) {
            holds.push(Hold { task: creator, block, mode: Mode::Rw, place: Place::Made });
        }
    }
    session.holds = holds;
}

/// Doomed blocks are held and destroyed ones not.
fn mend_blocks(session: &mut Session) {
    for handle in 1..=session.object_count() {
        let held = session.is_held(handle);
        if let Some(Object::Block(block)) = session.object_mut(handle) {
            block.state = match block.state {
                BlockState::Doomed if !held => BlockState::Destroyed,
                BlockState::Destroyed if held => BlockState::Doomed,
                state => state,
            };
        }
    }
}

/// A counted event has a count that its links fit, often just that, and is destroyed when so many are delivered; other
/// events have none.
fn mend_counts(random: &mut Random, session: &mut Session) {
    for handle in 1..=session.object_count() {
        let (made, served) = (session.links_from(handle), session.delivered_from(handle));
        let more = random.among(&[0, 0, 1, 5]);
        let Some(event) = session.event_mut(handle) else { continue };
        if event.kind != EventType::Counted {
            event.count = 0;
            continue;
        }
        if event.count == 0 || event.count < made {
            event.count = (made.max(1) + more).min(made.max(16));
        }
        if served == event.count && event.state == EventState::Fired {
            event.state = EventState::Destroyed { had_fired: true };
        }
    }
}

/// Whether the layout can hold it: an output event is the next one after its task, and a hold is its slot's or its
/// block's.
fn fits(session: &Session) -> bool {
    let made = |hold: &Hold| session.block(hold.block).is_some_and(|block| block.creator == hold.task);
    session.tasks().all(|(handle, task)| task.output == 0 || task.output == handle + 1)
        && session.holds.iter().all(|hold| match hold.place {
            Place::Slot(place) => {
                let slot = session.task(hold.task).and_then(|task| task.slots.get(place as usize));
                slot.is_some_and(|slot| slot.satisfied) && session.wanted_holds(hold.task).contains(hold)
            }
            Place::Made => made(hold),
        })
}

fn counted(session: &Session) -> u64 {
    let is_counted = |object: &&Object| matches!(object, Object::Event(event) if event.kind == EventType::Counted);
    session.objects.iter().filter(is_counted).count() as u64
}

/// Sessions of lists of that edition; how many counted events there are in the sound ones that come of them.
fn judge_mended(edition: Edition) -> u64 {
    let mut judge = Judge::new(4).in_edition(edition);
    let mut events = 0;
    for seed in 0..120 {
        let mut random = Random::part(seed, 77);
        let whole = reached(edition, seed, 30 + 2 * seed);
        for _ in 0..40 {
            let mut session = whole.clone();
            for _ in 0..1 + random.below(3) {
                change(&mut random, &mut session);
            }
            mend(&mut random, &mut session);
            if fits(&session) {
                judge.judge(&to_words(&session));
                events += if session.is_sound() { counted(&session) } else { 0 };
            }
        }
    }
    println!("{:?}, {events} counted events in the sound ones", judge.found);
    assert!(judge.found.sound > 1_000 && judge.found.unsound > 1_000);
    events
}

#[test]
fn changed_and_mended() {
    assert!(judge_mended(Edition::First) > 50);
}

#[test]
fn changed_and_mended_in_edition_2() {
    assert!(judge_mended(Edition::Second) > 5_000);
}

/// A delivery is dropped exactly if it would take the latch out of its range.
#[test]
fn deliveries_at_the_ends_of_a_latch() {
    for (tally, slot, dropped) in [
        (32_767, 1, 1),
        (32_767, 0, 0),
        (32_766, 1, 0),
        (-32_767, 0, 1),
        (-32_767, 1, 0),
        (-32_766, 0, 0),
        (-1, 1, 0),
        (1, 0, 0),
    ] {
        let mut session = Session::fresh();
        for numbers in [&[10, 2][..], &[11, 2], &[3, 2, 3], &[3, 2, 4], &[6, 2, 3, 1, 0], &[5, 2, 3, 4, slot, 1]] {
            assert_eq!(session.apply(&Operation::new(numbers[0], &numbers[1..])).refused, 0, "{numbers:?}");
        }
        session.event_mut(4).unwrap().tally = tally;
        let mut pair = Pair::of(session);
        assert_eq!(pair.call(&Operation::new(9, &[1]), Through::Apply), Answer { refused: 0, made: 0 });
        assert_eq!(pair.second.dropped, dropped, "{tally}, slot {slot}");
    }
}

/// Main has no output event, however well one would fit.
#[test]
fn main_with_an_output_event() {
    let mut session = Session::fresh();
    session.objects.push(Object::Event(Event::open(EventType::Output)));
    session.task_mut(2).unwrap().output = 3;
    assert!(!session.is_sound());
    Judge::new(5).judge(&to_words(&session));
}
