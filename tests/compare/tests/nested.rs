//! Sheets of nested tasks, record by record: every answer, with the steps that an end or a destroyed task climbs, and the
//! whole memory after every call.

use compare::pair::{Pair, Through};
use second::nested::nested_sheet;
use second::record::{read_first, read_record};

const SEED: u64 = 20_261_117;
const SHEETS: u64 = 160;

/// One call in so many goes through check 2.
const EVERY: u64 = 37;

const DESTROY: u64 = 8;
const END: u64 = 12;

/// What the sheets bring up: how often a climb had so many steps, longer ones together.
#[derive(Default)]
struct Climbs {
    ends: [u64; 8],
    destroyed: [u64; 4],
    most: u64,
}

impl Climbs {
    fn count(&mut self, code: u64, steps: u64) {
        let place = |rows: usize| (steps as usize).min(rows - 1);
        match code {
            END => self.ends[place(8)] += 1,
            DESTROY => self.destroyed[place(4)] += 1,
            _ => return,
        }
        self.most = self.most.max(steps);
    }
}

/// Play the sheet's records on both engines.
fn play(index: u64, climbs: &mut Climbs) -> u64 {
    let sheet = nested_sheet(SEED, index);
    let (edition, mut at) = read_first(&sheet).expect("a first number");
    let mut pair = Pair::fresh();
    while at < sheet.len() {
        let (operation, used) = read_record(&sheet[at..], edition).expect("a whole record");
        let through = if pair.calls % EVERY == 0 { Through::Apply } else { Through::ApplySound };
        let answer = pair.call(&operation, through);
        if answer.refused == 0 {
            climbs.count(operation.code, answer.made);
        }
        at += used;
    }
    pair.calls
}

#[test]
fn nested_tasks() {
    let mut climbs = Climbs::default();
    let calls: u64 = (0..SHEETS).map(|index| play(index, &mut climbs)).sum();
    let Climbs { ends, destroyed, most } = climbs;
    println!("{calls} calls; ends by their steps {ends:?}, destroyed tasks {destroyed:?}, at the most {most}");
    assert!(calls >= 50_000, "{calls} calls");
    assert!(ends.iter().all(|count| *count >= 20) && most >= 400, "ends {ends:?}, at the most {most}");
    assert!(destroyed[1..].iter().all(|count| *count >= 20), "destroyed tasks {destroyed:?}");
}
