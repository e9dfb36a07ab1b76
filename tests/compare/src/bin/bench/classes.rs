//! Sheets per second of a class report: the proved one through the library, part by part, beside the second engine's;
//! and a sheet in a class beside the same sheet alone. Then reports of learners with one turn and with ten, also by the
//! class programs.

use std::path::Path;
use std::time::{Duration, Instant};
use std::{fs, iter};

use compare::layout::WORDS;
use compare::reports::{class_of, report, turns_of};
use compare::Memory;
use second::random::Random;
use second::record::read_first;
use second::sheets::{random_sheet, short_sheet};
use second::Edition;

use crate::median;
use crate::processes::{self, programs};

/// Reports of a class, of which the median counts; no more than fit in this time.
const ROUNDS: usize = 51;
const PATIENCE: Duration = Duration::from_secs(8);

const SEED: u64 = 20_261_116;

/// Bytes of line memory of a part: for many lines, and the fewest that are taken.
const LINES: usize = 16_384;
const ONE_LINE: usize = 128;

/// Reports of a class with turns, which take so little time that one interruption shows in fewer.
const TURN_ROUNDS: usize = 501;

/// Runs of a class program, of which the median counts.
const PROGRAM_ROUNDS: usize = 201;

/// Learners, and turns of each, where later turns replace earlier ones.
const LEARNERS: usize = 100;
const TURNS: usize = 10;

/// The generator's long sheets are each sixteenth, from the eighth on.
const LONG: u64 = 8;
const THEMES: u64 = 16;

pub fn print_table() {
    println!(
        "| class | sheets | bytes a sheet | bytes of lines | proved, sheets/s | second, sheets/s | proved / second \
         | in a class, ns/sheet | alone, ns/sheet |"
    );
    println!("|---|---|---|---|---|---|---|---|---|");
    let short = short_sheets(1_000);
    let long: Vec<Vec<u8>> = (0..50).map(|turn| random_sheet(SEED, turn * THEMES + LONG)).collect();
    print_row("short", &short, LINES);
    print_row("the listing", &vec![listing(); 1_000], LINES);
    print_row("long", &long, LINES);
    print_row("short", &short, ONE_LINE);
    println!();
    print_turns(&[
        ("short", &short[..LEARNERS * TURNS]),
        ("the listing", &vec![listing(); LEARNERS * TURNS]),
        ("long", &long),
    ]);
}

/// So many short sheets, none of them of edition 2: a library from before E4 can be measured on them too.
fn short_sheets(count: usize) -> Vec<Vec<u8>> {
    let mut random = Random::new(SEED);
    let sheets = iter::repeat_with(|| short_sheet(&mut random));
    sheets.filter(|sheet| !matches!(read_first(sheet), Ok((Edition::Second, _)))).take(count).collect()
}

/// The class file of learners with one turn each, the last of theirs, or with all of them.
fn class_with_turns(sheets: &[Vec<u8>], count: usize) -> Vec<u8> {
    let turns: Vec<Vec<_>> = sheets
        .chunks(TURNS)
        .map(|sheets| (TURNS - count..TURNS).map(|turn| (turn as u64, sheets[turn].clone())).collect())
        .collect();
    turns_of(&turns)
}

/// A class of learners with one sheet each, beside the same learners with nine earlier turns before it: a file in memory,
/// and then the same by the class programs, each from its start to its end.
fn print_turns(kinds: &[(&str, &[Vec<u8>])]) {
    let files = |sheets| [1, TURNS].map(|count| class_with_turns(sheets, count));
    print_turns_head("in memory");
    for (name, sheets) in kinds {
        let files = files(sheets);
        let times = reported(&files, LINES, TURN_ROUNDS, |_| ());
        let both = |place: usize| [times[place][0], times[place][1]];
        print_two_rows(name, sheets.len() / TURNS, [0, 1].map(|place| (files[place].len(), both(place))));
    }
    println!();
    print_turns_head("by the programs");
    let programs = programs("class_report", "class");
    for (name, sheets) in kinds {
        let files = files(sheets);
        let times = processes::measure(&programs, &files, PROGRAM_ROUNDS);
        let both = |place: usize| times[place].0.clone().map(median);
        print_two_rows(name, sheets.len() / TURNS, [0, 1].map(|place| (files[place].len(), both(place))));
    }
}

fn print_turns_head(what: &str) {
    let both = "proved, µs | second, µs | proved / second";
    println!("| {what} | learners | turns of each | bytes | {both} | as much as with one turn |");
    println!("|---|---|---|---|---|---|---|---|");
}

/// The rows of one turn and of all, of which the bytes and both times are told.
fn print_two_rows(name: &str, learners: usize, rows: [(usize, [Duration; 2]); 2]) {
    let once = rows[0].1[0].as_secs_f64();
    for (count, (size, times)) in [1, TURNS].into_iter().zip(rows) {
        let [proved, second] = times.map(|time| time.as_secs_f64());
        println!(
            "| {name} | {learners} | {count} | {size} | {:.1} | {:.1} | {:.2} | {:.2} |",
            1e6 * proved,
            1e6 * second,
            second / proved,
            proved / once
        );
    }
}

/// Document 01's listing, which is the sheet program's input.
fn listing() -> Vec<u8> {
    let file = Path::new(env!("CARGO_MANIFEST_DIR")).join("../../crates/ocr_sheet/stdin");
    fs::read(file).expect("document 01's listing")
}

fn print_row(name: &str, sheets: &[Vec<u8>], room: usize) {
    let count = sheets.len() as f64;
    let each = sheets.iter().map(Vec::len).sum::<usize>() / sheets.len();
    let [proved, second, alone] = measure(sheets, room).map(|time| time.as_secs_f64() / count);
    println!(
        "| {name} | {} | {each} | {room} | {:.0} | {:.0} | {:.2} | {:.0} | {:.0} |",
        sheets.len(),
        1.0 / proved,
        1.0 / second,
        second / proved,
        1e9 * proved,
        1e9 * alone
    );
}

/// The median time of both reports, and of the sheets one by one.
fn measure(sheets: &[Vec<u8>], room: usize) -> [Duration; 3] {
    // A record takes two bytes at least, and a line 32 at most.
    let mut all_lines = vec![0; 16 * sheets.iter().map(Vec::len).max().unwrap_or(0) + 128];
    reported(&[class_of(sheets)], room, ROUNDS, |memory| {
        sheets.iter().for_each(|sheet| run_alone(memory, sheet, &mut all_lines))
    })[0]
}

/// Of each class file the median time of both reports, which are the same, and of other work on the memory; in each round
/// every file has its turn, so that a busy machine slows all of them.
fn reported(files: &[Vec<u8>], room: usize, rounds: usize, mut other: impl FnMut(&mut Memory)) -> Vec<[Duration; 3]> {
    let mut memory = Memory::new(vec![0; WORDS]);
    let mut lines = vec![0; room];
    let [mut proved, mut second] = [0, 1].map(|_| vec![]);
    let mut times: Vec<[Vec<Duration>; 3]> = files.iter().map(|_| Default::default()).collect();
    let began = Instant::now();
    for round in 0..rounds {
        if round >= 3 && began.elapsed() > PATIENCE {
            break;
        }
        for (file, times) in files.iter().zip(&mut times) {
            proved.clear();
            second.clear();
            timed(&mut times[0], || report(&mut memory, file, &mut lines, &mut proved));
            timed(&mut times[1], || second::class::report(file, &mut second));
            timed(&mut times[2], || other(&mut memory));
            assert!(proved == second, "the reports differ");
        }
    }
    times.into_iter().map(|times| times.map(median)).collect()
}

/// A sheet as the sheet program runs it: a fresh session, the records, the last line.
fn run_alone(memory: &mut Memory, sheet: &[u8], lines: &mut [u8]) {
    memory.fresh();
    let ended = memory.run(sheet, lines, 0);
    let (refused, _) = memory.last_line(lines, ended.used);
    assert!(ended.ending != 1 && refused == 0, "too little memory");
}

fn timed(times: &mut Vec<Duration>, work: impl FnOnce()) {
    let began = Instant::now();
    work();
    times.push(began.elapsed());
}
