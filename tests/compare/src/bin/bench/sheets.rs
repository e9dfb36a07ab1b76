//! Records per second of the two sheet programs, each run as a process with the sheet on its standard input.

use std::fs::File;
use std::path::PathBuf;
use std::process::Command;
use std::time::Duration;
use std::{env, fs, process};

use compare::stages::Grown;
use second::sheets::random_sheet;
use second::{write_record, EventState, EventType, Object, Operation, TaskState};

use crate::median;
use crate::processes::{measure, programs};

/// Runs of a sheet, of which the median counts.
const ROUNDS: usize = 51;

const SEED: u64 = 20_261_115;

/// The generator's sheets come in sixteen themes: sheet 1 of them is short, sheet 0 longer, sheet 8 as long as can be.
const THEMES: u64 = 16;
const SETS: [(&str, u64, u64); 3] = [("short", 1, 40), ("middle", 0, 40), ("long", 8, 10)];

/// A session's objects and links, and how many steady records follow.
const STEADY: [(&str, u64, u64, [u64; 3]); 2] =
    [("small", 32, 128, [1_000, 3_000, 6_000]), ("full", 512, 2_048, [750, 1_500, 3_000])];

pub fn print_tables() {
    println!("| sheets | of them | records | bytes a sheet | proved, records/s | second, records/s | proved / second |");
    println!("|---|---|---|---|---|---|---|");
    for (name, theme, count) in SETS {
        print_set(name, (0..count).map(|turn| random_sheet(SEED, turn * THEMES + theme)).collect());
    }
    println!();
    println!("| session | objects | links | steady records | proved, instructions/record | second, instructions/record |");
    println!("|---|---|---|---|---|---|");
    for (name, objects, links, counts) in STEADY {
        print_steady(name, objects, links, &counts);
    }
}

/// The whole time of the processes, from their start to their end.
fn print_set(name: &str, sheets: Vec<Vec<u8>>) {
    let (mut times, mut records) = ([Duration::ZERO; 2], 0);
    for (taken, lines) in measure(&sheet_programs(), &sheets, ROUNDS) {
        times.iter_mut().zip(taken.map(median)).for_each(|(sum, median)| *sum += median);
        records += lines - 1;
    }
    let [proved, second] = times.map(|time| records as f64 / time.as_secs_f64());
    let count = sheets.len();
    let each = sheets.iter().map(Vec::len).sum::<usize>() / count;
    println!("| {name} | {count} | {records} | {each} | {proved:.0} | {second:.0} | {:.2} |", proved / second);
}

/// What each record more costs on a session that keeps its size: in instructions, as callgrind counts them. In time it
/// is less than two starts of a process differ.
fn print_steady(name: &str, objects: u64, links: u64, counts: &[u64]) {
    let grown = Grown::to(11, objects, links);
    let base = instructions(&steady_sheet(&grown, 0));
    for count in counts {
        let all = instructions(&steady_sheet(&grown, *count));
        let [proved, second] = [0, 1].map(|program| (all[program] - base[program]) / *count as f64);
        println!("| {name} | {objects} | {links} | {count} | {proved:.0} | {second:.0} |");
    }
}

/// The instructions of both programs on a sheet.
fn instructions(sheet: &[u8]) -> [f64; 2] {
    let file = env::temp_dir().join(format!("faltxigor-{}.sheet", process::id()));
    fs::write(&file, sheet).expect("a file for the sheet");
    let counts = sheet_programs().map(|program| {
        let mut command = Command::new("valgrind");
        command.args(["--tool=callgrind", "--callgrind-out-file=/dev/null"]).arg(program);
        let output = command.stdin(File::open(&file).expect("the sheet")).output().expect("valgrind");
        let told = String::from_utf8_lossy(&output.stderr).into_owned();
        let count = told.lines().find_map(|line| line.split("Collected : ").nth(1)).expect("a count");
        count.trim().parse().expect("a number")
    });
    fs::remove_file(&file).expect("the file goes");
    counts
}

/// The calls that lead to the session and two steps up of a latch; then so many records that leave all sizes as they
/// are: by turns a step up of the latch, a refused grant, a step down and a refused start.
fn steady_sheet(grown: &Grown, count: u64) -> Vec<u8> {
    let latch = place(grown, |object| match object {
        Object::Event(event) => event.kind == EventType::Latch && event.state == EventState::Open && event.tally >= 0,
        _ => false,
    });
    let caller = place(grown, |object| matches!(object, Object::Task(task) if task.state == TaskState::Running));
    let step = |up: u64| Operation::new(6, &[caller, latch, 0, up]);
    let turns = [step(1), Operation::new(10, &[caller]), step(0), Operation::new(11, &[caller])];
    let mut sheet = vec![1];
    let mut put = |call: &Operation| sheet.extend(write_record(call, 1).expect("a record"));
    grown.calls.iter().for_each(&mut put);
    (0..2).for_each(|_| put(&step(1)));
    turns.iter().cycle().take(count as usize).for_each(put);
    sheet
}

/// The first handle of such an object.
fn place(grown: &Grown, suits: impl Fn(&Object) -> bool) -> u64 {
    1 + grown.session.objects.iter().position(suits).expect("such an object") as u64
}

fn sheet_programs() -> [PathBuf; 2] {
    programs("ocr_sheet", "sheet")
}
