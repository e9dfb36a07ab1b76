//! Checks 20, 21 and 24: room for what the call makes.

use crate::call::Call;
use crate::object::EventType;
use crate::session::{Session, MAX_LINKS, MAX_OBJECTS};

/// "20. The objects would pass 512." A task with output makes two.
pub fn objects_full(session: &Session, call: &Call) -> bool {
    let made = match *call {
        Call::Template { .. } | Call::Event { .. } | Call::Block { .. } | Call::Counted { .. } => 1,
        Call::Task { output, .. } => 1 + output,
        _ => 0,
    };
    made > 0 && session.object_count() + made > MAX_OBJECTS
}

/// "21. The links would pass 2,048." "An event makes a link".
pub fn links_full(session: &Session, call: &Call) -> bool {
    match *call {
        Call::Dependence { source, .. } => session.event(source).is_some() && session.link_count() + 1 > MAX_LINKS,
        _ => false,
    }
}

/// "24, one more link from a counted event that already has its count": links in whatever state.
pub fn count_used_up(session: &Session, call: &Call) -> bool {
    let Call::Dependence { source, .. } = *call else { return false };
    let Some(event) = session.event(source) else { return false };
    event.kind == EventType::Counted && session.links_from(source) >= event.count
}
