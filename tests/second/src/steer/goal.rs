//! Edges that random calls do not come to by themselves.

use super::Steer;
use crate::object::{EventState, EventType, Object, Template, LATCH_RANGE};
use crate::operation::Operation;
use crate::session::{MAX_LINKS, MAX_OBJECTS};

/// What a list is driven to before it goes on at random.
#[derive(Clone, Copy, Debug, PartialEq, Eq)]
pub enum Goal {
    Nothing,
    /// 512 objects, for refusal 20.
    Objects,
    /// 2,048 links, for refusal 21.
    Links,
    /// Finish tasks within finish tasks, all along the list.
    Families,
    /// A latch at an end of its range, for refusal 19; the slot says which end.
    Latch {
        slot: u64,
    },
}

impl Steer {
    /// The next call towards the goal; `None` once it is reached, or if no such call is accepted now.
    pub(super) fn towards_goal(&mut self) -> Option<Operation> {
        let operation = match self.goal {
            Goal::Nothing => return None,
            Goal::Objects if self.session.object_count() >= MAX_OBJECTS => return None,
            Goal::Links if self.session.link_count() >= MAX_LINKS => return None,
            Goal::Objects => {
                let code = self.making_code();
                self.draw(code)
            }
            Goal::Links if self.session.object_count() < 24 => {
                let code = if self.has_counted() && self.random.percent(30) { 13 } else { 3 };
                self.draw(code)
            }
            Goal::Links if self.has_counted() && self.session.link_count() >= MAX_LINKS - 64 => self.draw_last_use(),
            Goal::Links => self.draw_link(),
            Goal::Families => self.family()?,
            Goal::Latch { slot } => self.climb(slot)?,
        };
        (self.session.check(&operation) == 0 && self.keeps_going(&operation)).then_some(operation)
    }

    /// An operation that makes objects.
    fn making_code(&mut self) -> u64 {
        if self.has_counted() && self.random.percent(30) {
            return 13;
        }
        1 + self.random.below(4)
    }

    /// Tasks without slots are made, run, ended and destroyed without waiting for anything.
    fn family(&mut self) -> Option<Operation> {
        let code = self.random.among(&[0, 0, 0, 0, 2, 2, 8, 10, 11, 12]);
        if code == 0 || code == 2 && self.is_ahead() {
            return None;
        }
        let mut operation = self.draw(code);
        if code == 2 {
            operation.fields[1] = self.slotless_template();
            operation.fields[2] = 0;
            if operation.fields[1] == 0 {
                return Some(Operation::new(1, &[operation.fields[0], 0]));
            }
        }
        Some(operation)
    }

    fn slotless_template(&self) -> u64 {
        let suits = |template: &Template| !template.destroyed && template.count == 0;
        let handles = 1..=self.session.object_count();
        let mut found = handles.filter(|handle| self.session.template(*handle).is_some_and(suits));
        found.next().unwrap_or(0)
    }

    /// The first open latch that is not on the other side of 0 takes all the steps; without one, it is made.
    fn climb(&mut self, slot: u64) -> Option<Operation> {
        let sign = if slot == 1 { 1 } else { -1 };
        let caller = self.draw(3).fields[0];
        let suits = |object: &Object| match object {
            Object::Event(event) if event.kind == EventType::Latch && event.state == EventState::Open => {
                Some(event.tally * sign).filter(|tally| *tally >= 0)
            }
            _ => None,
        };
        let found = (1..).zip(&self.session.objects).find_map(|(handle, object)| Some((handle, suits(object)?)));
        match found {
            None => Some(Operation::new(3, &[caller, 4])),
            Some((_, LATCH_RANGE)) => None,
            Some((latch, _)) => Some(Operation::new(6, &[caller, latch, 0, slot])),
        }
    }
}
