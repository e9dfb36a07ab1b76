//! "A sound session", clause by clause.

mod arrivals;
mod holds;
mod links;
mod objects;
mod tasks;

use crate::object::Object;
use crate::session::{Session, MAX_LINKS, MAX_OBJECTS};
use arrivals::Arrivals;

impl Session {
    /// Whether the session is sound. Never panics, whatever the session holds.
    pub fn is_sound(&self) -> bool {
        let Some(arrivals) = Arrivals::of(self) else { return false };
        self.object_count() <= MAX_OBJECTS
            && self.link_count() <= MAX_LINKS
            && objects::begins_as_made(self)
            && self.objects_are_sound(&arrivals)
            && self.links.iter().all(|link| links::is_sound(self, link))
            && holds::are_sound(self)
            && links::dropped_is_sound(self)
    }

    fn objects_are_sound(&self, arrivals: &Arrivals) -> bool {
        let below = self.live_below();
        (1..=self.object_count()).zip(&self.objects).all(|(handle, object)| match object {
            Object::Template(template) => template.count <= 17,
            Object::Task(task) => tasks::is_sound(self, handle, task, arrivals, below[handle as usize - 1]),
            Object::Event(event) => objects::event_is_sound(self, handle, event),
            Object::Block(block) => objects::block_is_sound(self, handle, block),
        })
    }
}
