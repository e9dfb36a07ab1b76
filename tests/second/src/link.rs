//! Links from events to pre-slots.

/// "open, ready, delivered, cut".
#[derive(Clone, Copy, Debug, PartialEq, Eq)]
pub enum LinkState {
    Open,
    Ready,
    Delivered,
    Cut,
}

/// "from an event to a pre-slot" of a task or an event.
#[derive(Clone, Copy, Debug, PartialEq, Eq)]
pub struct Link {
    pub source: u64,
    pub destination: u64,
    pub slot: u64,
    pub state: LinkState,
}

impl Link {
    /// "Undelivered means open or ready."
    pub fn is_undelivered(&self) -> bool {
        matches!(self.state, LinkState::Open | LinkState::Ready)
    }
}
