//! What calls about counted events cost, beside the same calls about stickies.

use compare::stages::Grown;
use second::Operation;

use crate::rows::{print_rows, row_costs, Costs};

/// Events of either type, and links from each: as many as a counted one is made for.
const EVENTS: u64 = 4;
const LINKS: u64 = 4;

/// The rows, and calls that are in none.
const ROWS: [&str; 7] = [
    "counted event",
    "sticky event",
    "link from a counted event",
    "link from a sticky",
    "delivery from a counted event, not the last",
    "the last one, with which it goes",
    "delivery from a sticky",
];
const MAKE: usize = 0;
const LINK: usize = 2;
const DELIVER: usize = 4;
const LAST: usize = 5;
const DELIVER_STICKY: usize = 6;
const NO_ROW: usize = ROWS.len();

pub fn print_table(sizes: [(u64, u64); 2]) {
    print_rows("about counted events", ROWS, sizes, measure);
}

/// Calls from a session that has so many objects and links in the end.
fn measure(objects: u64, links: u64) -> Costs<{ ROWS.len() }> {
    let mut grown = Grown::to(11, objects - 2 * EVENTS - 1, links - 2 * EVENTS * LINKS);
    let calls = timed_calls(&mut grown);
    row_costs(&grown, &calls, |_, answer| answer.refused == 0)
}

/// Each call with its row. The links lead to an idempotent event that has fired, so that a delivery does no more there.
fn timed_calls(grown: &mut Grown) -> Vec<(usize, Operation)> {
    let caller = grown.caller();
    let target = grown.call(&[3, caller, 2]);
    grown.call(&[6, caller, target, 0, 0]);
    let (event, link) = (grown.session.object_count() + 1, grown.session.link_count() + 1);
    // By turns a counted event and a sticky.
    let turns = || 0..2 * EVENTS;
    let links = || (0..LINKS).flat_map(|round| turns().map(move |turn| (round, turn)));
    let mut calls = vec![];
    for turn in turns() {
        let numbers = if turn % 2 == 0 { [13, caller, LINKS] } else { [3, caller, 3] };
        calls.push((MAKE + turn as usize % 2, Operation::new(numbers[0], &numbers[1..])));
    }
    for (_, turn) in links() {
        calls.push((LINK + turn as usize % 2, Operation::new(5, &[caller, event + turn, target, 0, 1])));
    }
    for turn in turns() {
        calls.push((NO_ROW, Operation::new(6, &[caller, event + turn, 0, 0])));
    }
    for (number, (round, turn)) in (link..).zip(links()) {
        let row = match (turn % 2, round + 1) {
            (0, LINKS) => LAST,
            (0, _) => DELIVER,
            _ => DELIVER_STICKY,
        };
        calls.push((row, Operation::new(9, &[number])));
    }
    calls
}
