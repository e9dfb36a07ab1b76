//! Checks 7 to 11: what the fields by themselves must be.

use crate::call::Call;
use crate::object::{BlockState, Object, TaskState};
use crate::session::Session;

/// "7. A field with a range in its brackets is outside it."
pub fn out_of_range(_: &Session, call: &Call) -> bool {
    match *call {
        Call::Template { count, .. } => count > 17,
        Call::Task { count, finish, output, .. } => count > 17 || finish > 1 || output > 1,
        Call::Event { kind, .. } => !(1..=4).contains(&kind),
        Call::Block { hold, .. } => hold > 1,
        Call::Dependence { mode, .. } => !(1..=4).contains(&mode),
        Call::Counted { count, .. } => !(1..=16).contains(&count),
        _ => false,
    }
}

/// "8. The caller is not a running task." One never made, or of another kind, is none (reading 3).
pub fn caller_not_running(session: &Session, call: &Call) -> bool {
    let running = |caller| session.task(caller).is_some_and(|task| task.state == TaskState::Running);
    call.caller().is_some_and(|caller| !running(caller))
}

/// What a handle field admits.
#[derive(Clone, Copy)]
enum Admits {
    Template,
    Task,
    Block,
    /// Types 1 to 4, and counted ones.
    Event,
    /// "Source: 0, a block or an event."
    Source,
    /// "Destination: a task or an event of type 1 to 4.", or a counted one.
    Destination,
    /// "template, task, event of type 1 to 4, or block", or a counted one.
    Destroyable,
}

/// A handle field other than the caller.
struct Named {
    handle: u64,
    null: bool,
    admits: Admits,
}

fn needed(handle: u64, admits: Admits) -> Option<Named> {
    Some(Named { handle, null: false, admits })
}

fn or_null(handle: u64, admits: Admits) -> Option<Named> {
    Some(Named { handle, null: true, admits })
}

/// The handle fields, in order, two at most; a link number is no handle.
fn named(call: &Call) -> [Option<Named>; 2] {
    match *call {
        Call::Template { .. } | Call::Event { .. } | Call::Block { .. } | Call::Counted { .. } => [None, None],
        Call::Deliver { .. } => [None, None],
        Call::Task { template, .. } => [needed(template, Admits::Template), None],
        Call::Dependence { source, destination, .. } => {
            [or_null(source, Admits::Source), needed(destination, Admits::Destination)]
        }
        Call::Satisfy { event, block, .. } => [needed(event, Admits::Event), or_null(block, Admits::Block)],
        Call::Release { block, .. } => [needed(block, Admits::Block), None],
        Call::Destroy { object, .. } => [needed(object, Admits::Destroyable), None],
        Call::Grant { task } | Call::Start { task } => [needed(task, Admits::Task), None],
        Call::End { task, block } => [needed(task, Admits::Task), or_null(block, Admits::Block)],
    }
}

/// "9. A handle or link number was never made, or is 0 where null has no meaning."
pub fn never_made(session: &Session, call: &Call) -> bool {
    if let Call::Deliver { link } = *call {
        return session.link(link).is_none();
    }
    let missing = |field: &Named| session.object(field.handle).is_none() && !(field.null && field.handle == 0);
    named(call).iter().flatten().any(missing)
}

fn admitted(admits: Admits, object: &Object) -> bool {
    let settable = matches!(object, Object::Event(event) if event.kind.is_admitted());
    match admits {
        Admits::Template => matches!(object, Object::Template(_)),
        Admits::Task => matches!(object, Object::Task(_)),
        Admits::Block => matches!(object, Object::Block(_)),
        Admits::Event => settable,
        Admits::Source => matches!(object, Object::Block(_) | Object::Event(_)),
        Admits::Destination => settable || matches!(object, Object::Task(_)),
        Admits::Destroyable => settable || !matches!(object, Object::Event(_)),
    }
}

/// "10. A handle names a wrong kind, or an event of a type not admitted."
pub fn wrong_kind(session: &Session, call: &Call) -> bool {
    let wrong = |field: &Named| session.object(field.handle).is_some_and(|object| !admitted(field.admits, object));
    named(call).iter().flatten().any(wrong)
}

/// "11. An object named is gone: destroyed, ended, doomed (but for release), or a fired once, latch or output."
pub fn gone(session: &Session, call: &Call) -> bool {
    let release = matches!(call, Call::Release { .. });
    named(call).iter().flatten().any(|field| match session.object(field.handle) {
        None => false,
        Some(Object::Template(template)) => template.destroyed,
        Some(Object::Task(task)) => !task.is_live(),
        Some(Object::Event(event)) => event.is_gone(),
        Some(Object::Block(block)) => match block.state {
            BlockState::Live => false,
            BlockState::Doomed => !release,
            BlockState::Destroyed => true,
        },
    })
}
