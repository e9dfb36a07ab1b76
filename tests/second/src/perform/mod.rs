//! What an accepted call does to the session.

mod destroy;
mod events;
mod tasks;

use crate::call::Call;
use crate::hold::{Hold, Place};
use crate::link::{Link, LinkState};
use crate::mode::Mode;
use crate::object::*;
use crate::session::Session;

impl Session {
    /// Carry out a call that passed every check; the handle or link made, for an end and for destroying a task the steps
    /// climbed, or 0.
    pub(crate) fn perform(&mut self, call: &Call) -> u64 {
        match *call {
            Call::Template { count, .. } => self.add(Object::Template(Template { destroyed: false, count })),
            Call::Task { caller, template, count, finish, output } => {
                self.make_task(caller, template, count, finish == 1, output == 1)
            }
            Call::Event { kind, .. } => {
                EventType::try_from(kind).map_or(0, |kind| self.add(Object::Event(Event::open(kind))))
            }
            Call::Counted { count, .. } => self.add(Object::Event(Event::counted(count))),
            Call::Block { caller, hold } => self.make_block(caller, hold == 1),
            Call::Dependence { source, destination, slot, mode, .. } => self.depend(source, destination, slot, mode),
            Call::Destroy { caller, object } => self.destroy(caller, object),
            Call::End { task, block } => self.end(task, block),
            _ => {
                self.carry_out(call);
                0
            }
        }
    }

    /// The calls that make nothing and climb nowhere.
    fn carry_out(&mut self, call: &Call) {
        match *call {
            Call::Satisfy { event, block, slot, .. } => self.satisfy(event, slot, block),
            Call::Release { caller, block } => self.end_holds(|hold| hold.task == caller && hold.block == block),
            Call::Deliver { link } => self.deliver(link),
            Call::Grant { task } => self.grant(task),
            Call::Start { task } => self.set_state(task, TaskState::Running),
            _ => (),
        }
    }

    fn add(&mut self, object: Object) -> u64 {
        self.objects.push(object);
        self.object_count()
    }

    /// "Count 17 takes the template's. [..] With output, an event of type 5 gets the next handle. No pre-slots:
    /// resolved."
    fn make_task(&mut self, creator: u64, template: u64, count: u64, finish: bool, output: bool) -> u64 {
        let known = self.template(template).map_or(0, |template| template.count);
        let count = if count == UNKNOWN { known } else { count };
        let state = if count == 0 { TaskState::Resolved } else { TaskState::Waiting };
        let next = self.object_count() + 2;
        let slots = vec![Slot::UNCLAIMED; count as usize];
        let made =
            self.add(Object::Task(Task { state, slots, creator, finish, output: if output { next } else { 0 } }));
        if output {
            self.add(Object::Event(Event::open(EventType::Output)));
        }
        made
    }

    /// "With 1 the caller holds it in RW."
    fn make_block(&mut self, creator: u64, hold: bool) -> u64 {
        let block = self.add(Object::Block(Block { state: BlockState::Live, creator }));
        if hold {
            self.holds.push(Hold { task: creator, block, mode: Mode::Rw, place: Place::Made });
        }
        block
    }

    /// "Source 0 or block satisfies the slot now, with that payload. An event makes a link, ready if the event has
    /// fired. A task's slot becomes claimed; an event's slot takes many and keeps no mode."
    fn depend(&mut self, source: u64, destination: u64, slot: u64, mode: u64) -> u64 {
        if let Some(task) = self.task_mut(destination) {
            task.slots[slot as usize].mode = Mode::try_from(mode).ok();
        }
        let Some(event) = self.event(source) else {
            self.satisfy(destination, slot, source);
            return 0;
        };
        let state = if event.has_fired() { LinkState::Ready } else { LinkState::Open };
        self.links.push(Link { source, destination, slot, state });
        self.link_count()
    }
}
