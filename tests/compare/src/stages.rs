//! Sessions of a wanted size, with objects and links of every kind and much left to do.

use crate::layout::WORDS;
use crate::library::Memory;
use crate::words::to_words;
use second::random::Random;
use second::steer::{Goal, Reach, Steer};
use second::{EventType, Object, Operation, Session, Task, TaskState};

/// A session and the accepted calls that lead to it from a fresh one.
pub struct Grown {
    pub session: Session,
    pub calls: Vec<Operation>,
}

impl Grown {
    /// A session with exactly so many objects and links: a quarter of the objects by random calls (families of finish
    /// tasks, some run and ended), the rest by turns, then links from every event that is there to be linked from.
    pub fn to(seed: u64, objects: u64, links: u64) -> Grown {
        let mut grown = Grown { session: Session::fresh(), calls: vec![] };
        let mut steer = Steer::new(Random::new(seed), Reach::Records, Goal::Families, 20 * objects);
        while steer.session.object_count() < objects / 4 {
            let (operation, answer) = steer.next_call();
            if answer.refused == 0 {
                grown.calls.push(operation);
            }
        }
        grown.session = steer.session;
        grown.fill_objects(objects);
        grown.fill_links(links);
        assert_eq!((grown.session.object_count(), grown.session.link_count()), (objects, links), "seed {seed}");
        grown
    }

    /// An accepted call; what it made.
    pub fn call(&mut self, numbers: &[u64]) -> u64 {
        let operation = Operation::new(numbers[0], &numbers[1..]);
        let answer = self.session.apply(&operation);
        assert_eq!(answer.refused, 0, "{numbers:?}");
        self.calls.push(operation);
        answer.made
    }

    /// A running task.
    pub fn caller(&self) -> u64 {
        let running = |(handle, task): (u64, &Task)| (task.state == TaskState::Running).then_some(handle);
        self.session.tasks().find_map(running).expect("a running task")
    }

    /// Events of all types, blocks held and not, and tasks: waiting with an output event, resolved, and a finish task
    /// without slots.
    fn fill_objects(&mut self, objects: u64) {
        let caller = self.caller();
        let (two, none, block) = (self.call(&[1, caller, 2]), self.call(&[1, caller, 0]), self.call(&[4, caller, 0]));
        for turn in 0.. {
            let kind = 1 + turn / 6 % 4;
            match (turn % 6, objects - self.session.object_count()) {
                (_, 0) => break,
                (0, 2..) => drop(self.call(&[2, caller, two, 2, 0, 1])),
                (1, 2..) => drop(self.call(&[2, caller, none, 0, 1, 1])),
                (2, _) => drop(self.call(&[4, caller, turn / 6 % 2])),
                (3, _) => {
                    let task = self.call(&[2, caller, two, 17, 0, 0]);
                    self.call(&[5, caller, 0, task, 0, 1]);
                    self.call(&[5, caller, block, task, 1, kind]);
                }
                _ => drop(self.call(&[3, caller, kind])),
            }
        }
    }

    /// Every fourth link goes to a pre-slot as long as one is unclaimed, the others to events.
    fn fill_links(&mut self, links: u64) {
        let caller = self.caller();
        let (sources, targets) = (self.events(true), self.events(false));
        let mut slots = self.unclaimed();
        let mut turn = 0;
        while self.session.link_count() < links {
            let source = sources[turn % sources.len()];
            let (target, slot) = match slots.pop().filter(|_| turn % 4 == 0) {
                Some(found) => found,
                None => (targets[(turn / 2 + turn / targets.len()) % targets.len()], 0),
            };
            self.call(&[5, caller, source, target, slot, 1 + turn as u64 % 4]);
            turn += 1;
        }
    }

    /// The events that are not gone; output events are no targets.
    fn events(&self, outputs: bool) -> Vec<u64> {
        let suits = |object: &Object| match object {
            Object::Event(event) => !event.is_gone() && (outputs || event.kind != EventType::Output),
            _ => false,
        };
        (1..).zip(&self.session.objects).filter(|(_, object)| suits(object)).map(|(handle, _)| handle).collect()
    }

    fn unclaimed(&self) -> Vec<(u64, u64)> {
        let of = |(handle, task): (u64, &Task)| -> Vec<(u64, u64)> {
            let free = (0..).zip(&task.slots).filter(|(_, slot)| task.is_live() && slot.mode.is_none());
            free.map(|(place, _)| (handle, place)).collect()
        };
        self.session.tasks().flat_map(of).collect()
    }

    /// The session in memory, made by the library from the same calls.
    pub fn memory(&self) -> Memory {
        let mut memory = Memory::new(vec![0; WORDS]);
        assert_eq!(memory.fresh(), 0);
        for call in &self.calls {
            assert_eq!(memory.apply_sound(call).refused, 0, "{call:?}");
        }
        assert!(memory.words() == to_words(&self.session), "the engines come to other sessions");
        memory
    }

    /// The next calls that the generator makes from here, accepted or not.
    pub fn calls_on(&self, seed: u64, count: u64) -> Vec<Operation> {
        let mut steer = Steer::new(Random::part(seed, count), Reach::Records, Goal::Nothing, 10 * count);
        steer.session.clone_from(&self.session);
        (0..count).map(|_| steer.next_call().0).collect()
    }
}
