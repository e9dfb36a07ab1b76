//! Random calls, steered by a session of their own so that most are accepted and every refusal turns up.

mod counted;
mod draw;
mod goal;

use crate::edition::Edition;
use crate::object::TaskState;
use crate::operation::{Answer, Operation};
use crate::random::Random;
use crate::session::Session;
pub use goal::Goal;

/// Which calls a list may have.
#[derive(Clone, Copy, Debug, PartialEq, Eq)]
pub enum Reach {
    /// Known codes and fields within the limit of check 4, as a sheet needs to run on.
    Records,
    /// Any codes and fields, as a single call takes them.
    Anything,
}

/// A list of calls in the making.
pub struct Steer {
    pub session: Session,
    random: Random,
    edition: Edition,
    reach: Reach,
    goal: Goal,
    planned: u64,
    done: u64,
}

/// How often the codes 1 to 12 are tried, of 100; in edition 2 these are three calls of four.
const WEIGHTS: [u64; 12] = [3, 10, 9, 5, 20, 10, 4, 3, 13, 9, 9, 5];

/// The refusals that a known code can meet.
const REFUSALS: [u32; 15] = [7, 8, 9, 10, 11, 12, 13, 14, 15, 16, 17, 18, 19, 20, 21];

/// The same in edition 2, where 24 needs a counted event that has its count of links: it is tried more often.
const REFUSALS_2: [u32; 17] = [7, 8, 9, 10, 11, 12, 13, 14, 15, 16, 17, 18, 19, 20, 21, 24, 24];

/// Calls that a list needs for a latch to come to an end of its range, with some to spare.
pub const LATCH_CALLS: u64 = 34_500;

/// The list of single calls of a seed, which has a goal if it is long enough for it; the seed modulo 12 says which.
pub fn random_list(seed: u64, calls: u64) -> Steer {
    let goal = match seed % 12 {
        0 | 8 if calls >= LATCH_CALLS => Goal::Latch { slot: 1 },
        4 if calls >= LATCH_CALLS => Goal::Latch { slot: 0 },
        1 | 2 | 6 | 10 => Goal::Families,
        5 if calls >= 1_000 => Goal::Objects,
        7 if calls >= 4_000 => Goal::Links,
        _ => Goal::Nothing,
    };
    Steer::new(Random::part(seed, u64::MAX), Reach::Anything, goal, calls)
}

impl Steer {
    /// A list planned to have so many calls, from a fresh session.
    pub fn new(random: Random, reach: Reach, goal: Goal, planned: u64) -> Steer {
        let (session, edition) = (Session::fresh(), Edition::First);
        Steer { session, random, edition, reach, goal, planned: planned.max(1), done: 0 }
    }

    /// The same with the codes of that edition; a list has those of edition 1 if nothing is said.
    pub fn in_edition(self, edition: Edition) -> Steer {
        Steer { edition, ..self }
    }

    /// The next call, already carried out here, with its answer.
    pub fn next_call(&mut self) -> (Operation, Answer) {
        let operation = self.choose();
        self.done += 1;
        let answer = self.session.apply(&operation);
        (operation, answer)
    }

    /// Two calls of three are meant to be accepted, most others to meet a refusal picked by number.
    fn choose(&mut self) -> Operation {
        if self.random.percent(97) {
            if let Some(operation) = self.towards_goal() {
                return operation;
            }
        }
        match self.random.below(100) {
            0..=67 => self.accepted(),
            68..=95 => self.refused(),
            _ if self.reach == Reach::Anything => self.nonsense(),
            _ => self.refused(),
        }
    }

    /// A call that is accepted, if one turns up.
    fn accepted(&mut self) -> Operation {
        let mut operation = self.draw_any();
        for _ in 0..200 {
            if self.session.check(&operation) == 0 && self.keeps_going(&operation) {
                break;
            }
            operation = self.draw_any();
        }
        self.or_harmless(operation)
    }

    /// A call that meets a refusal picked beforehand, if one turns up.
    fn refused(&mut self) -> Operation {
        let wanted = self.random.among(self.refusals());
        let mut operation = self.draw_any();
        for _ in 0..60 {
            if self.session.check(&operation) == wanted {
                break;
            }
            operation = self.draw_towards(wanted);
            if self.random.percent(60) {
                self.spoil(&mut operation);
            }
        }
        self.or_harmless(operation)
    }

    fn refusals(&self) -> &'static [u32] {
        match self.edition {
            Edition::First => &REFUSALS,
            Edition::Second => &REFUSALS_2,
        }
    }

    /// Refusals that few codes can meet are looked for among those half of the time.
    fn draw_towards(&mut self, refusal: u32) -> Operation {
        if self.has_counted() && self.random.percent(40) {
            if let Some(operation) = self.draw_counted_towards(refusal) {
                return operation;
            }
        }
        let code = match refusal {
            13 => 5,
            14 => self.random.among(&[5, 6]),
            15 => 7,
            17 | 18 => 10,
            19 => return self.draw_latch(),
            20 => 1 + self.random.below(4),
            21 => return self.draw_link(),
            _ => return self.draw_any(),
        };
        if self.random.percent(50) {
            self.draw(code)
        } else {
            self.draw_any()
        }
    }

    /// An unknown code, or a known one with fields of any size.
    fn nonsense(&mut self) -> Operation {
        let mut fields = [0; 5];
        fields.iter_mut().for_each(|field| *field = self.odd_number());
        let code = if self.random.percent(50) { self.odd_number() } else { 1 + self.random.below(self.codes()) };
        self.or_harmless(Operation { code, fields })
    }

    /// Up to this one the codes are tried with any fields: in edition 2 the first unknown one too.
    fn codes(&self) -> u64 {
        match self.edition {
            Edition::First => 12,
            Edition::Second => 14,
        }
    }

    /// The operation, unless it would leave no task running with much of the list to come: then a null release.
    fn or_harmless(&self, operation: Operation) -> Operation {
        if self.session.check(&operation) == 0 && !self.keeps_going(&operation) {
            return Operation::new(7, &[operation.fields[0], 0]);
        }
        operation
    }

    /// Not the end of the last running task, but near the end of the list.
    fn keeps_going(&self, operation: &Operation) -> bool {
        operation.code != 12 || self.running() > 1 || self.done * 20 >= self.planned * 19
    }

    fn running(&self) -> usize {
        self.session.tasks().filter(|(_, task)| task.state == TaskState::Running).count()
    }
}
