//! What one accepted call costs, operation by operation: each call is timed by itself.

use std::time::{Duration, Instant};

use compare::stages::Grown;
use second::{Answer, Operation};

use crate::{median, BATCHES, CALLS};

const ROUNDS: usize = 15;

/// Codes 1 to 12; operation 13 has a table with what else is about counted events.
const CODES: usize = 12;

const NAMES: [&str; CODES] = [
    "template",
    "task",
    "event",
    "block",
    "dependence",
    "satisfy",
    "release",
    "destroy",
    "deliver",
    "grant",
    "start",
    "end",
];

/// Nanoseconds an accepted call, by code, of the proved engine and of the second one; `None` where none was accepted.
type Costs = [[Option<f64>; CODES]; 2];

pub fn print_table(sizes: [(u64, u64); 2]) {
    let [less, more] = sizes.map(|(objects, links)| measure(&Grown::to(11, objects, links)));
    let [few, many] = sizes.map(|(objects, _)| objects);
    println!(
        "| accepted call | apply_sound, ns at {few} | at {many} | times | second, ns at {few} | at {many} | times |"
    );
    println!("|---|---|---|---|---|---|---|");
    for code in 0..CODES {
        let cells = [0, 1].map(|engine| cells(less[engine][code], more[engine][code]));
        println!("| {} | {} | {} |", NAMES[code], cells[0], cells[1]);
    }
}

pub fn cells(less: Option<f64>, more: Option<f64>) -> String {
    let shown = |cost: Option<f64>| cost.map_or("-".to_string(), |cost| format!("{cost:.0}"));
    let times = less.zip(more).map_or("-".to_string(), |(less, more)| format!("{:.1}", more / less));
    format!("{} | {} | {times}", shown(less), shown(more))
}

fn measure(grown: &Grown) -> Costs {
    let mut sums = [[(0.0, 0); CODES]; 2];
    for batch in 0..BATCHES {
        let calls = grown.calls_on(batch, CALLS);
        let (answers, costs) = batch_costs(grown, &calls);
        for (place, call) in calls.iter().enumerate().filter(|(place, _)| answers[*place].refused == 0) {
            for engine in 0..2 {
                let (sum, count) = &mut sums[engine][call.code as usize - 1];
                *sum += costs[engine][place].as_nanos() as f64;
                *count += 1;
            }
        }
    }
    sums.map(|row| row.map(|(sum, count)| (count > 0).then(|| sum / f64::from(count))))
}

/// The answers, and for both engines the median time of each call.
pub fn batch_costs(grown: &Grown, calls: &[Operation]) -> (Vec<Answer>, [Vec<Duration>; 2]) {
    let whole = grown.memory();
    let mut memory = whole.clone();
    let mut times = [vec![vec![]; calls.len()], vec![vec![]; calls.len()]];
    let mut answers = vec![];
    for _ in 0..ROUNDS {
        memory.copy_from(&whole);
        let proved = timed_singly(&mut times[0], calls, |call| memory.apply_sound(call));
        let mut session = grown.session.clone();
        answers = timed_singly(&mut times[1], calls, |call| session.apply(call));
        assert_eq!(proved, answers, "the engines answer otherwise");
    }
    (answers, times.map(|times| times.into_iter().map(median).collect()))
}

fn timed_singly(
    times: &mut [Vec<Duration>],
    calls: &[Operation],
    mut apply: impl FnMut(&Operation) -> Answer,
) -> Vec<Answer> {
    let mut answers = Vec::with_capacity(calls.len());
    for (call, times) in calls.iter().zip(times) {
        let began = Instant::now();
        answers.push(apply(call));
        times.push(began.elapsed());
    }
    answers
}
