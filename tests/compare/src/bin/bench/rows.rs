//! Tables of calls that are laid out row by row: each call is timed by itself.

use std::array;

use compare::stages::Grown;
use second::{Answer, Operation};

use crate::by_operation::{batch_costs, cells};

/// Nanoseconds a call, by row, of the proved engine and of the second one.
pub type Costs<const ROWS: usize> = [[f64; ROWS]; 2];

/// A line for each row, of two sizes of session: objects and links.
pub fn print_rows<const ROWS: usize>(
    about: &str,
    names: [&str; ROWS],
    sizes: [(u64, u64); 2],
    measure: impl Fn(u64, u64) -> Costs<ROWS>,
) {
    let [less, more] = sizes.map(|(objects, links)| measure(objects, links));
    let [few, many] = sizes.map(|(objects, _)| objects);
    println!("| {about} | apply_sound, ns at {few} | at {many} | times | second, ns at {few} | at {many} | times |");
    println!("|---|---|---|---|---|---|---|");
    for (row, name) in names.iter().enumerate() {
        let cells = [0, 1].map(|engine| cells(Some(less[engine][row]), Some(more[engine][row])));
        println!("| {name} | {} | {} |", cells[0], cells[1]);
    }
}

/// The means of the calls of each row; the answer to each call has to be right for its row. A row past the last is none.
pub fn row_costs<const ROWS: usize>(
    grown: &Grown,
    calls: &[(usize, Operation)],
    right: impl Fn(usize, Answer) -> bool,
) -> Costs<ROWS> {
    let operations: Vec<Operation> = calls.iter().map(|(_, call)| *call).collect();
    let (answers, costs) = batch_costs(grown, &operations);
    for ((row, call), answer) in calls.iter().zip(&answers) {
        assert!(right(*row, *answer), "{call:?}: {answer:?}");
    }
    costs.map(|costs| {
        let mean = |row: usize| {
            let of_row = calls.iter().zip(&costs).filter(|((of, _), _)| *of == row);
            let nanos: Vec<f64> = of_row.map(|(_, cost)| cost.as_nanos() as f64).collect();
            nanos.iter().sum::<f64>() / nanos.len() as f64
        };
        array::from_fn(mean)
    })
}
