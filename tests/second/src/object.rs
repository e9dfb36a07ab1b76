//! The four kinds of objects.
//!
//! Handles are plain numbers, so that a damaged session can be held as well as a sound one.

use crate::mode::Mode;
use crate::unsound::Unsound;

#[derive(Clone, Debug, PartialEq, Eq)]
pub enum Object {
    Template(Template),
    Task(Task),
    Event(Event),
    Block(Block),
}

/// "live or destroyed; holds a pre-slot count 0 to 16, or 17 for unknown".
#[derive(Clone, Debug, PartialEq, Eq)]
pub struct Template {
    pub destroyed: bool,
    pub count: u64,
}

/// The count of a template that does not know it, and the count field that takes the template's.
pub const UNKNOWN: u64 = 17;

/// "waiting (some pre-slot unsatisfied), resolved (none), granted, running, ended, destroyed".
#[derive(Clone, Copy, Debug, PartialEq, Eq)]
pub enum TaskState {
    Waiting,
    Resolved,
    Granted,
    Running,
    Ended,
    Destroyed,
}

/// "A task has 0 to 16 pre-slots [..]. It records its creator, and whether it is a finish task."
#[derive(Clone, Debug, PartialEq, Eq)]
pub struct Task {
    pub state: TaskState,
    pub slots: Vec<Slot>,
    /// A task's handle; 0 for main.
    pub creator: u64,
    pub finish: bool,
    /// The handle of the output event, 0 without one.
    pub output: u64,
}

impl Task {
    /// "Live means none of the last two."
    pub fn is_live(&self) -> bool {
        !matches!(self.state, TaskState::Ended | TaskState::Destroyed)
    }

    pub fn all_satisfied(&self) -> bool {
        self.slots.iter().all(|slot| slot.satisfied)
    }
}

/// "each unclaimed or claimed with an access mode, and satisfied or not, with a block handle or 0".
#[derive(Clone, Copy, Debug, PartialEq, Eq)]
pub struct Slot {
    /// `None` while unclaimed.
    pub mode: Option<Mode>,
    pub satisfied: bool,
    pub payload: u64,
}

impl Slot {
    pub const UNCLAIMED: Slot = Slot { mode: None, satisfied: false, payload: 0 };
}

/// "type 1 once, 2 idempotent, 3 sticky, 4 latch, 5 output"; "Operation 13 (caller, count 1..16) makes one, of type 6."
#[derive(Clone, Copy, Debug, PartialEq, Eq)]
pub enum EventType {
    Once,
    Idempotent,
    Sticky,
    Latch,
    Output,
    Counted,
}

impl TryFrom<u64> for EventType {
    type Error = Unsound;

    fn try_from(number: u64) -> Result<EventType, Unsound> {
        match number {
            1 => Ok(EventType::Once),
            2 => Ok(EventType::Idempotent),
            3 => Ok(EventType::Sticky),
            4 => Ok(EventType::Latch),
            5 => Ok(EventType::Output),
            6 => Ok(EventType::Counted),
            _ => Err(Unsound),
        }
    }
}

/// What the types are like, one question each.
impl EventType {
    /// "Once, latch and output count as gone as soon as fired"; a counted event "stays for later links".
    pub fn goes_when_fired(self) -> bool {
        matches!(self, EventType::Once | EventType::Latch | EventType::Output)
    }

    /// A sticky; a counted event "takes one satisfaction as sticky does (a second call gives 14, a second delivery is
    /// dropped)".
    pub fn takes_one(self) -> bool {
        matches!(self, EventType::Sticky | EventType::Counted)
    }

    /// "an event of type 1 to 4", where a call names an event other than as a source; a counted one "may be source,
    /// destination, satisfied or destroyed wherever types 1 to 4 may".
    pub fn is_admitted(self) -> bool {
        self != EventType::Output
    }
}

/// "open, fired, or destroyed (with a mark whether it had fired)".
#[derive(Clone, Copy, Debug, PartialEq, Eq)]
pub enum EventState {
    Open,
    Fired,
    Destroyed { had_fired: bool },
}

#[derive(Clone, Debug, PartialEq, Eq)]
pub struct Event {
    pub kind: EventType,
    pub state: EventState,
    /// "with a payload (block handle or 0)"
    pub payload: u64,
    /// "A latch counts increments minus decrements from 0"; 0 for the other types.
    pub tally: i64,
    /// "goes by itself once a stated number of dependences has been served": that number, 1 to 16 for a counted event; 0
    /// for the other types.
    pub count: u64,
}

/// How far a latch's count may be from 0.
pub const LATCH_RANGE: i64 = 32_767;

impl Event {
    pub fn open(kind: EventType) -> Event {
        Event { kind, state: EventState::Open, payload: 0, tally: 0, count: 0 }
    }

    pub fn counted(count: u64) -> Event {
        Event { count, ..Event::open(EventType::Counted) }
    }

    /// "Once, latch and output count as gone as soon as fired, their state staying fired".
    pub fn is_gone(&self) -> bool {
        match self.state {
            EventState::Open => false,
            EventState::Fired => self.kind.goes_when_fired(),
            EventState::Destroyed { .. } => true,
        }
    }

    /// Fired now, or when it was destroyed (reading 13).
    pub fn has_fired(&self) -> bool {
        matches!(self.state, EventState::Fired | EventState::Destroyed { had_fired: true })
    }

    /// "types 1 to 3 have slot 0; a latch has 0 (decrement) and 1 (increment)". An output event has none. A counted one
    /// "has slot 0".
    pub fn slot_count(&self) -> u64 {
        match self.kind {
            EventType::Once | EventType::Idempotent | EventType::Sticky | EventType::Counted => 1,
            EventType::Latch => 2,
            EventType::Output => 0,
        }
    }

    /// A satisfied sticky, or a counted event likewise: there still, and taking no other satisfaction.
    pub fn has_taken_one(&self) -> bool {
        self.kind.takes_one() && self.state == EventState::Fired
    }

    /// What a latch would count after a satisfaction of that slot.
    pub fn tally_after(&self, slot: u64) -> i64 {
        if slot == 1 {
            self.tally + 1
        } else {
            self.tally - 1
        }
    }

    /// Whether a satisfaction of that slot would take a latch out of "-32,767 to 32,767".
    pub fn leaves_range(&self, slot: u64) -> bool {
        self.kind == EventType::Latch && self.tally_after(slot).abs() > LATCH_RANGE
    }
}

/// "live, doomed (to be destroyed when the last hold goes), destroyed".
#[derive(Clone, Copy, Debug, PartialEq, Eq)]
pub enum BlockState {
    Live,
    Doomed,
    Destroyed,
}

/// "Records its creator": a task's handle, 0 for block 1.
#[derive(Clone, Debug, PartialEq, Eq)]
pub struct Block {
    pub state: BlockState,
    pub creator: u64,
}
