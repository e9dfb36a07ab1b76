//! Which link goes to which pre-slot of a task.

use crate::link::Link;
use crate::session::{Session, MAX_OBJECTS};

const SLOTS: usize = 16;

/// The link to each pre-slot of each task.
pub struct Arrivals<'a> {
    to: Vec<[Option<&'a Link>; SLOTS]>,
}

impl<'a> Arrivals<'a> {
    /// `None` when a pre-slot of a task has two links: "unclaimed [..] has no link to it, a claimed one has at most
    /// one". Links to other places are left to the check of the links.
    pub fn of(session: &'a Session) -> Option<Arrivals<'a>> {
        let objects = session.objects.len().min(MAX_OBJECTS as usize);
        let mut to = vec![[None; SLOTS]; objects];
        for link in &session.links {
            if session.task(link.destination).is_none() {
                continue;
            }
            let slots = to.get_mut(link.destination as usize - 1);
            let Some(place) = slots.and_then(|slots| slots.get_mut(link.slot as usize)) else { continue };
            if place.replace(link).is_some() {
                return None;
            }
        }
        Some(Arrivals { to })
    }

    pub fn at(&self, task: u64, slot: usize) -> Option<&'a Link> {
        *self.to.get(task as usize - 1)?.get(slot)?
    }
}
