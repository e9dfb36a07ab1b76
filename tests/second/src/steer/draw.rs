//! Drawing the fields of a call so that it may well be accepted.

use super::{Reach, Steer, WEIGHTS};
use crate::link::{Link, LinkState};
use crate::number::MAX_NUMBER;
use crate::object::*;
use crate::operation::{field_count, Operation};
use crate::session::{Session, MAX_OBJECTS};

pub(super) type Wanted = fn(&Session, u64, &Object) -> bool;

fn is_template(_: &Session, _: u64, object: &Object) -> bool {
    matches!(object, Object::Template(template) if !template.destroyed)
}

fn is_block(_: &Session, _: u64, object: &Object) -> bool {
    matches!(object, Object::Block(block) if block.state == BlockState::Live)
}

fn is_event(_: &Session, _: u64, object: &Object) -> bool {
    matches!(object, Object::Event(event) if !event.is_gone())
}

fn is_full_latch(_: &Session, _: u64, object: &Object) -> bool {
    matches!(object, Object::Event(event) if !event.is_gone() && event.tally.abs() == LATCH_RANGE)
}

fn is_ready(_: &Session, link: &Link) -> bool {
    link.state == LinkState::Ready
}

/// Waits for a claim of some slot.
fn is_claimable(_: &Session, _: u64, object: &Object) -> bool {
    matches!(object, Object::Task(task) if task.is_live() && task.slots.iter().any(|slot| slot.mode.is_none()))
}

fn is_held_block(session: &Session, handle: u64, _: &Object) -> bool {
    session.is_held(handle)
}

fn has_state(object: &Object, state: TaskState) -> bool {
    matches!(object, Object::Task(task) if task.state == state)
}

fn is_resolved(_: &Session, _: u64, object: &Object) -> bool {
    has_state(object, TaskState::Resolved)
}

fn is_granted(_: &Session, _: u64, object: &Object) -> bool {
    has_state(object, TaskState::Granted)
}

fn is_running(_: &Session, _: u64, object: &Object) -> bool {
    has_state(object, TaskState::Running)
}

/// Runs as a finish task: what it makes are descendants that its output event waits for.
fn is_finish(_: &Session, _: u64, object: &Object) -> bool {
    matches!(object, Object::Task(task) if task.state == TaskState::Running && task.finish && task.output != 0)
}

/// May be destroyed as a task.
fn is_not_granted(_: &Session, _: u64, object: &Object) -> bool {
    has_state(object, TaskState::Waiting) || has_state(object, TaskState::Resolved)
}

fn is_any(_: &Session, _: u64, _: &Object) -> bool {
    true
}

impl Steer {
    /// A call of a code picked by weight. Makers of objects mostly wait while the list is ahead of its share of the
    /// 512, ends and releases while few tasks run or hold: conflicts come up only where several do at once. In edition 2
    /// one call of four is about a counted event.
    pub(super) fn draw_any(&mut self) -> Operation {
        if self.has_counted() && self.random.percent(25) {
            return self.draw_counted();
        }
        let ahead = self.is_ahead();
        let (few_run, few_hold) = (self.running() < 6, self.session.holds.len() < 8);
        let mut code = self.draw_code();
        while (ahead && code <= 4 || few_run && code == 12 || few_hold && code == 7) && self.random.percent(90) {
            code = self.draw_code();
        }
        self.draw(code)
    }

    /// More objects are made than the list's share of the 512 so far.
    pub(super) fn is_ahead(&self) -> bool {
        self.session.object_count() > 24 + MAX_OBJECTS * self.done / self.planned
    }

    fn draw_code(&mut self) -> u64 {
        let mut left = self.random.below(WEIGHTS.iter().sum());
        for (code, weight) in (1..).zip(WEIGHTS) {
            if left < weight {
                return code;
            }
            left -= weight;
        }
        12
    }

    pub(super) fn draw(&mut self, code: u64) -> Operation {
        let fields: Vec<u64> = match code {
            1 => vec![self.caller(), self.draw_count()],
            2 => self.draw_task(),
            3 => vec![self.caller(), 1 + self.random.below(4)],
            4 => vec![self.caller(), self.random.below(2)],
            5 => self.draw_dependence(),
            6 => vec![self.caller(), self.pick_awaited(), self.block_or_null(), self.random.below(2)],
            7 => self.draw_release(),
            8 => self.draw_destroy(),
            9 => vec![self.pick_link_where(is_ready)],
            10 => vec![self.pick(is_resolved)],
            11 => vec![self.pick(is_granted)],
            13 => self.draw_maker(),
            _ => vec![self.finish_or_running(), self.block_or_null()],
        };
        Operation::new(code, &fields)
    }

    pub(super) fn caller(&mut self) -> u64 {
        self.pick(is_running)
    }

    /// Often a finish task, so that finish tasks have descendants and end before them.
    fn finish_or_running(&mut self) -> u64 {
        match self.random.below(2) {
            0 => self.caller(),
            _ => match self.pick(is_finish) {
                0 => self.caller(),
                task => task,
            },
        }
    }

    /// Few slots mostly, so that tasks come to run; now and then as many as there can be.
    fn draw_count(&mut self) -> u64 {
        match self.random.below(10) {
            0..=6 => self.random.below(4),
            7 => 15 + self.random.below(2),
            8 => UNKNOWN,
            _ => self.random.below(18),
        }
    }

    fn draw_task(&mut self) -> Vec<u64> {
        let template = self.pick(is_template);
        let known = self.session.template(template).map_or(0, |template| template.count);
        let count = if known == UNKNOWN { self.draw_count() } else { self.random.among(&[known, UNKNOWN]) };
        let caller = self.finish_or_running();
        vec![caller, template, count, self.random.below(2), u64::from(self.random.percent(60))]
    }

    fn draw_dependence(&mut self) -> Vec<u64> {
        let source = if self.random.percent(45) { self.pick(is_event) } else { self.block_or_null() };
        let (destination, slot) = if self.random.percent(70) { self.pick_slot() } else { self.pick_event_slot() };
        vec![self.caller(), source, destination, slot, 1 + self.random.below(4)]
    }

    /// Often the source of an open link, so that what waits goes on.
    fn pick_awaited(&mut self) -> u64 {
        let links = &self.session.links;
        if links.is_empty() || self.random.percent(30) {
            return self.pick(is_event);
        }
        let link = self.random.among(links);
        if link.state == LinkState::Open {
            link.source
        } else {
            self.pick(is_event)
        }
    }

    pub(super) fn pick_slot(&mut self) -> (u64, u64) {
        let task = self.pick(is_claimable);
        let slots = self.session.task(task).map_or(1, |task| task.slots.len() as u64);
        (task, self.random.below(slots.max(1)))
    }

    pub(super) fn pick_event_slot(&mut self) -> (u64, u64) {
        (self.pick(is_event), self.random.below(2))
    }

    /// A dependence from event to event.
    pub(super) fn draw_link(&mut self) -> Operation {
        let (destination, slot) = self.pick_event_slot();
        let fields = [self.caller(), self.pick(is_event), destination, slot, 1 + self.random.below(4)];
        Operation::new(5, &fields)
    }

    /// A satisfaction of a latch at an end of its range, or a dependence that satisfies it at once.
    pub(super) fn draw_latch(&mut self) -> Operation {
        let (latch, slot) = (self.pick(is_full_latch), self.random.below(2));
        let (caller, payload) = (self.caller(), self.block_or_null());
        if self.random.percent(50) {
            Operation::new(6, &[caller, latch, payload, slot])
        } else {
            Operation::new(5, &[caller, payload, latch, slot, 1 + self.random.below(4)])
        }
    }

    fn draw_destroy(&mut self) -> Vec<u64> {
        let object = if self.random.percent(30) { self.pick(is_not_granted) } else { self.pick(is_any) };
        vec![self.caller(), object]
    }

    fn draw_release(&mut self) -> Vec<u64> {
        if self.random.percent(20) || self.session.holds.is_empty() {
            return vec![self.caller(), self.pick(is_held_block)];
        }
        let hold = self.random.among(&self.session.holds);
        vec![hold.task, hold.block]
    }

    /// Often a block that a task holds already, or the oldest live one, so that grants meet conflicts.
    pub(super) fn block_or_null(&mut self) -> u64 {
        match self.random.below(8) {
            0 => 0,
            1 | 2 => self.pick(is_held_block),
            3 | 4 => self.pick_from(0, is_block),
            _ => self.pick(is_block),
        }
    }

    /// The first object wanted from a random one on; 0 if there is none.
    pub(super) fn pick(&mut self, wanted: Wanted) -> u64 {
        let first = self.random.below(self.session.object_count());
        self.pick_from(first, wanted)
    }

    pub(super) fn pick_from(&self, first: u64, wanted: Wanted) -> u64 {
        let count = self.session.object_count();
        let fits =
            |handle: &u64| self.session.object(*handle).is_some_and(|object| wanted(&self.session, *handle, object));
        (0..count).map(|step| (first + step) % count + 1).find(fits).unwrap_or(0)
    }

    /// The first link wanted from a random one on; 0 if there is none.
    pub(super) fn pick_link_where(&mut self, wanted: fn(&Session, &Link) -> bool) -> u64 {
        let count = self.session.link_count().max(1);
        let first = self.random.below(count);
        let fits = |number: &u64| self.session.link(*number).is_some_and(|link| wanted(&self.session, link));
        (0..count).map(|step| (first + step) % count + 1).find(fits).unwrap_or(0)
    }

    /// Another number in one field.
    pub(super) fn spoil(&mut self, operation: &mut Operation) {
        let count = field_count(operation.code).unwrap_or(1) as u64;
        let field = self.random.below(count) as usize;
        operation.fields[field] = match self.random.below(5) {
            0 => 0,
            1 => self.random.below(20),
            2 => self.odd_number(),
            3 => self.session.link_count(),
            _ => self.pick(is_any),
        };
    }

    /// Numbers at the edges of things.
    pub(super) fn odd_number(&mut self) -> u64 {
        let next = self.session.object_count() + 1;
        let near = [0, next, 17, 18, 127, 128, 511, 512, 513, 2_048, 2_049, 16_383, 16_384, MAX_NUMBER];
        let far = [MAX_NUMBER + 1, MAX_NUMBER + 3, 1 << 63, u64::MAX, u64::MAX - 1, self.random.draw()];
        if self.reach == Reach::Anything && self.random.percent(50) {
            self.random.among(&far)
        } else {
            self.random.among(&near)
        }
    }
}
