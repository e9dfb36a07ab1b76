//! "The last line [..] gives live tasks, undelivered links, dropped."

use crate::session::Session;

impl Session {
    pub fn live_tasks(&self) -> u64 {
        self.tasks().filter(|(_, task)| task.is_live()).count() as u64
    }

    pub fn undelivered_links(&self) -> u64 {
        self.links.iter().filter(|link| link.is_undelivered()).count() as u64
    }

    pub fn dropped(&self) -> u64 {
        self.dropped
    }
}
