//! An operation with its fields named.

use crate::operation::Operation;

/// "Operations: code, then fields", and "Operation 13 (caller, count 1..16)".
#[derive(Clone, Copy, Debug, PartialEq, Eq)]
pub enum Call {
    Template { caller: u64, count: u64 },
    Task { caller: u64, template: u64, count: u64, finish: u64, output: u64 },
    Event { caller: u64, kind: u64 },
    Block { caller: u64, hold: u64 },
    Dependence { caller: u64, source: u64, destination: u64, slot: u64, mode: u64 },
    Satisfy { caller: u64, event: u64, block: u64, slot: u64 },
    Release { caller: u64, block: u64 },
    Destroy { caller: u64, object: u64 },
    Deliver { link: u64 },
    Grant { task: u64 },
    Start { task: u64 },
    End { task: u64, block: u64 },
    Counted { caller: u64, count: u64 },
}

impl Call {
    /// `None`: "The operation code is unknown."
    pub fn of(operation: &Operation) -> Option<Call> {
        let [a, b, c, d, e] = operation.fields;
        Some(match operation.code {
            1 => Call::Template { caller: a, count: b },
            2 => Call::Task { caller: a, template: b, count: c, finish: d, output: e },
            3 => Call::Event { caller: a, kind: b },
            4 => Call::Block { caller: a, hold: b },
            5 => Call::Dependence { caller: a, source: b, destination: c, slot: d, mode: e },
            6 => Call::Satisfy { caller: a, event: b, block: c, slot: d },
            7 => Call::Release { caller: a, block: b },
            8 => Call::Destroy { caller: a, object: b },
            9 => Call::Deliver { link: a },
            10 => Call::Grant { task: a },
            11 => Call::Start { task: a },
            12 => Call::End { task: a, block: b },
            13 => Call::Counted { caller: a, count: b },
            _ => return None,
        })
    }

    /// "the caller must be a running task": operations 1 to 8 and 13 have one.
    pub fn caller(&self) -> Option<u64> {
        match *self {
            Call::Template { caller, .. }
            | Call::Task { caller, .. }
            | Call::Event { caller, .. }
            | Call::Block { caller, .. }
            | Call::Dependence { caller, .. }
            | Call::Satisfy { caller, .. }
            | Call::Release { caller, .. }
            | Call::Destroy { caller, .. }
            | Call::Counted { caller, .. } => Some(caller),
            Call::Deliver { .. } | Call::Grant { .. } | Call::Start { .. } | Call::End { .. } => None,
        }
    }
}
