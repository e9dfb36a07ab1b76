//! Lines of three numbers.

use crate::operation::Answer;
use crate::session::Session;

/// "per record its number from 1, the refusal (0 if accepted), and the handle or link made"; "For end and for destroying
/// a task, the third number on the line becomes the steps climbed".
pub fn answer_line(record: u64, answer: Answer) -> String {
    format!("{record} {} {}\n", answer.refused, answer.made)
}

/// "The last line [..] gives live tasks, undelivered links, dropped."
pub fn last_line(session: &Session) -> String {
    format!("{} {} {}\n", session.live_tasks(), session.undelivered_links(), session.dropped())
}
