//! A session and the ways to look things up in it.

use crate::hold::Hold;
use crate::link::{Link, LinkState};
use crate::mode::Mode;
use crate::object::*;

/// "A session has at most 512 objects and 2,048 links (numbered from 1)."
pub const MAX_OBJECTS: u64 = 512;
pub const MAX_LINKS: u64 = 2_048;

/// "Objects get handles 1, 2, .. in order of creation": object h is at place h - 1, link n at place n - 1.
#[derive(Clone, Debug, PartialEq, Eq)]
pub struct Session {
    pub objects: Vec<Object>,
    pub links: Vec<Link>,
    pub holds: Vec<Hold>,
    pub dropped: u64,
}

/// The place of something numbered from 1.
fn place(number: u64) -> Option<usize> {
    usize::try_from(number.checked_sub(1)?).ok()
}

impl Session {
    /// "A fresh session has block 1 and main task 2: plain, without creator, resolved, its one pre-slot satisfied by
    /// block 1 in mode RW."
    pub fn fresh() -> Session {
        let slot = Slot { mode: Some(Mode::Rw), satisfied: true, payload: 1 };
        let main = Task { state: TaskState::Resolved, slots: vec![slot], creator: 0, finish: false, output: 0 };
        let block = Block { state: BlockState::Live, creator: 0 };
        Session { objects: vec![Object::Block(block), Object::Task(main)], links: vec![], holds: vec![], dropped: 0 }
    }

    pub fn object_count(&self) -> u64 {
        self.objects.len() as u64
    }

    pub fn link_count(&self) -> u64 {
        self.links.len() as u64
    }

    pub fn object(&self, handle: u64) -> Option<&Object> {
        self.objects.get(place(handle)?)
    }

    pub fn template(&self, handle: u64) -> Option<&Template> {
        match self.object(handle)? {
            Object::Template(template) => Some(template),
            _ => None,
        }
    }

    pub fn task(&self, handle: u64) -> Option<&Task> {
        match self.object(handle)? {
            Object::Task(task) => Some(task),
            _ => None,
        }
    }

    pub fn event(&self, handle: u64) -> Option<&Event> {
        match self.object(handle)? {
            Object::Event(event) => Some(event),
            _ => None,
        }
    }

    pub fn block(&self, handle: u64) -> Option<&Block> {
        match self.object(handle)? {
            Object::Block(block) => Some(block),
            _ => None,
        }
    }

    pub fn link(&self, number: u64) -> Option<&Link> {
        self.links.get(place(number)?)
    }

    /// How many links were made from an event, in whatever state they are.
    pub fn links_from(&self, source: u64) -> u64 {
        self.links.iter().filter(|link| link.source == source).count() as u64
    }

    pub fn delivered_from(&self, source: u64) -> u64 {
        let delivered = |link: &&Link| link.source == source && link.state == LinkState::Delivered;
        self.links.iter().filter(delivered).count() as u64
    }

    pub fn object_mut(&mut self, handle: u64) -> Option<&mut Object> {
        self.objects.get_mut(place(handle)?)
    }

    pub fn task_mut(&mut self, handle: u64) -> Option<&mut Task> {
        match self.object_mut(handle)? {
            Object::Task(task) => Some(task),
            _ => None,
        }
    }

    pub fn event_mut(&mut self, handle: u64) -> Option<&mut Event> {
        match self.object_mut(handle)? {
            Object::Event(event) => Some(event),
            _ => None,
        }
    }

    pub fn link_mut(&mut self, number: u64) -> Option<&mut Link> {
        self.links.get_mut(place(number)?)
    }

    /// The tasks with their handles, lowest first.
    pub fn tasks(&self) -> impl DoubleEndedIterator<Item = (u64, &Task)> {
        self.objects.iter().enumerate().filter_map(|(place, object)| match object {
            Object::Task(task) => Some((place as u64 + 1, task)),
            _ => None,
        })
    }

    pub fn is_held(&self, block: u64) -> bool {
        self.holds.iter().any(|hold| hold.block == block)
    }

    pub fn holds_block(&self, task: u64, block: u64) -> bool {
        self.holds.iter().any(|hold| hold.task == task && hold.block == block)
    }
}
