mod by_operation;
mod classes;
mod climbs;
mod counted;
mod passes;
mod processes;
mod rows;
mod sheets;

use std::env;
use std::time::{Duration, Instant};

use compare::stages::Grown;
use compare::words::to_words;
use second::{Answer, Operation};

/// Calls a batch, batches a session, and rounds of which the median counts.
const CALLS: u64 = 64;
const BATCHES: u64 = 8;
const ROUNDS: usize = 25;

/// No more rounds of a batch than fit in this time.
const PATIENCE: Duration = Duration::from_secs(2);

/// The four ways to carry out a call: the library's two and the second engine's two.
const WAYS: usize = 4;

/// A session with so many objects and links: nanoseconds a call, for each way.
struct Figures {
    objects: u64,
    links: u64,
    accepted: u64,
    nanos: [f64; WAYS],
}

/// Calls per second and cost of a call, the proved engine beside the second one; docs/BENCHMARKS.md says how. With the
/// word `classes`, class reports alone.
fn main() {
    if env::args().nth(1).as_deref() == Some("classes") {
        return classes::print_table();
    }
    let sizes = [(32, 128), (64, 256), (128, 512), (256, 1_024), (512, 2_048)];
    let figures: Vec<Figures> = sizes.iter().map(|(objects, links)| measure(*objects, *links)).collect();
    println!("{} batches of {CALLS} calls a session, the median of up to {ROUNDS} rounds", BATCHES);
    println!();
    println!(
        "| session | objects | links | accepted | through | proved, calls/s | second, calls/s | proved / second |"
    );
    println!("|---|---|---|---|---|---|---|---|");
    for (name, place) in [("small", 0), ("medium", 2), ("full", 4)] {
        speed_rows(name, &figures[place]);
    }
    println!();
    println!("| objects | links | apply, ns/call | apply_sound, ns/call | second checked, ns/call | second, ns/call |");
    println!("|---|---|---|---|---|---|");
    for row in &figures[1..] {
        let [apply, sound, checked, plain] = row.nanos;
        println!("| {} | {} | {apply:.0} | {sound:.0} | {checked:.0} | {plain:.0} |", row.objects, row.links);
    }
    let growth = |way: usize| figures[4].nanos[way] / figures[1].nanos[way];
    println!("| 512 over 64 | | {:.1} | {:.1} | {:.1} | {:.1} |", growth(0), growth(1), growth(2), growth(3));
    println!();
    passes::print(Grown::to(11, 512, 2_048).memory().words(), figures[4].nanos[0]);
    println!();
    by_operation::print_table([(64, 256), (512, 2_048)]);
    println!();
    counted::print_table([(64, 256), (512, 2_048)]);
    println!();
    climbs::print_table([(64, 256), (512, 2_048)]);
    println!();
    sheets::print_tables();
    println!();
    classes::print_table();
}

fn speed_rows(name: &str, row: &Figures) {
    let [apply, sound, checked, plain] = row.nanos.map(|nanos| 1e9 / nanos);
    let head = format!("| {name} | {} | {} | {} %", row.objects, row.links, row.accepted);
    println!("{head} | apply | {apply:.0} | {checked:.0} | {:.2} |", apply / checked);
    println!("{head} | apply_sound | {sound:.0} | {plain:.0} | {:.2} |", sound / plain);
}

fn measure(objects: u64, links: u64) -> Figures {
    let grown = Grown::to(11, objects, links);
    let (mut nanos, mut accepted) = ([0.0; WAYS], 0);
    for batch in 0..BATCHES {
        let (medians, answers) = batch_medians(&grown, &grown.calls_on(batch, CALLS));
        accepted += answers.iter().filter(|answer| answer.refused == 0).count() as u64;
        nanos.iter_mut().zip(medians).for_each(|(sum, median)| *sum += median.as_nanos() as f64);
    }
    let calls = BATCHES * CALLS;
    Figures { objects, links, accepted: 100 * accepted / calls, nanos: nanos.map(|sum| sum / calls as f64) }
}

/// The median time of a batch for each way, and the answers, which are the same for all. The session is put back before
/// each round, outside the time taken; the ways take turns, so that a busy machine slows all of them.
fn batch_medians(grown: &Grown, calls: &[Operation]) -> ([Duration; WAYS], Vec<Answer>) {
    let whole = grown.memory();
    let mut memory = whole.clone();
    let mut times: [Vec<Duration>; WAYS] = Default::default();
    let mut answers = vec![];
    let began = Instant::now();
    while times[0].len() < ROUNDS && (times[0].len() < 3 || began.elapsed() < PATIENCE) {
        memory.copy_from(&whole);
        let applied = timed(&mut times[0], calls, |call| memory.apply(call));
        memory.copy_from(&whole);
        let sound = timed(&mut times[1], calls, |call| memory.apply_sound(call));
        let mut session = grown.session.clone();
        let checked = timed(&mut times[2], calls, |call| session.apply_checked(call));
        let mut session = grown.session.clone();
        let plain = timed(&mut times[3], calls, |call| session.apply(call));
        assert!(applied == plain && sound == plain && checked == plain, "the engines answer otherwise");
        assert!(memory.words() == to_words(&session), "the engines leave other sessions");
        answers = plain;
    }
    (times.map(median), answers)
}

/// Carry out the calls and note the time.
fn timed(times: &mut Vec<Duration>, calls: &[Operation], mut apply: impl FnMut(&Operation) -> Answer) -> Vec<Answer> {
    let mut answers = Vec::with_capacity(calls.len());
    let began = Instant::now();
    answers.extend(calls.iter().map(&mut apply));
    times.push(began.elapsed());
    answers
}

fn median(mut times: Vec<Duration>) -> Duration {
    times.sort();
    times[times.len() / 2]
}
