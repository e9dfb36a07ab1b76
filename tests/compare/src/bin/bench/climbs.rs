//! What ends and destroyed tasks cost by how far they climb.

use compare::stages::Grown;
use second::Operation;

use crate::rows::{print_rows, row_costs, Costs};

/// Tasks of a row, and tasks in the line that the last end climbs.
const EACH: u64 = 4;
const LINE: u64 = 16;

/// The rows, and ends that are in none.
const ROWS: [&str; 6] = [
    "end, the creator live",
    "end, a child live",
    "end, the creator ended and another child of it live",
    "end, the creator ended and no other child of it live",
    "the last end of a line of 16, which climbs them all",
    "a task destroyed, the creator live",
];
const ALONE: usize = 0;
const PARENT: usize = 1;
const FIRST_CHILD: usize = 2;
const LAST_CHILD: usize = 3;
const LAST_OF_LINE: usize = 4;
const DESTROYED: usize = 5;
const NO_ROW: usize = ROWS.len();

/// The steps that each row climbs.
const STEPS: [u64; ROWS.len()] = [1, 0, 1, 2, LINE, 1];

pub fn print_table(sizes: [(u64, u64); 2]) {
    print_rows("about climbs", ROWS, sizes, measure);
}

/// Calls from a session that has so many objects and links.
fn measure(objects: u64, links: u64) -> Costs<{ ROWS.len() }> {
    let mut grown = Grown::to(11, objects - 1 - 5 * EACH - LINE, links);
    let calls = timed_calls(&mut grown);
    row_costs(&grown, &calls, |row, answer| answer.refused == 0 && (row == NO_ROW || answer.made == STEPS[row]))
}

/// A plain task without pre-slots, granted and started.
fn started(grown: &mut Grown, caller: u64, template: u64) -> u64 {
    let task = grown.call(&[2, caller, template, 0, 0, 0]);
    grown.call(&[10, task]);
    grown.call(&[11, task]);
    task
}

/// Each end with its row; the tasks are made before.
fn timed_calls(grown: &mut Grown) -> Vec<(usize, Operation)> {
    let caller = grown.caller();
    let template = grown.call(&[1, caller, 0]);
    let mut ends = vec![];
    for _ in 0..EACH {
        ends.push((ALONE, started(grown, caller, template)));
        let parent = started(grown, caller, template);
        ends.push((PARENT, parent));
        ends.push((FIRST_CHILD, started(grown, parent, template)));
        ends.push((LAST_CHILD, started(grown, parent, template)));
    }
    let mut last = caller;
    for place in 1..=LINE {
        last = started(grown, last, template);
        ends.push((if place == LINE { LAST_OF_LINE } else { NO_ROW }, last));
    }
    let waiting: Vec<u64> = (0..EACH).map(|_| grown.call(&[2, caller, template, 0, 0, 0])).collect();
    let ended = ends.into_iter().map(|(row, task)| (row, Operation::new(12, &[task, 0])));
    let destroyed = waiting.into_iter().map(|task| (DESTROYED, Operation::new(8, &[caller, task])));
    ended.chain(destroyed).collect()
}
