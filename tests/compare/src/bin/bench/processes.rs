//! Programs run as processes: the proved one and the second engine's, each with a file on its standard input.

use std::fs::File;
use std::path::{Path, PathBuf};
use std::process::{Command, Stdio};
use std::time::{Duration, Instant};
use std::{env, fs, process};

/// A proved program and the second engine's.
pub fn programs(proved: &str, second: &str) -> [PathBuf; 2] {
    let root = Path::new(env!("CARGO_MANIFEST_DIR")).join("../..");
    [root.join("crates").join(proved).join("out").join(proved), root.join("tests/second/target/release").join(second)]
}

/// Of each input the times of both programs, and how many lines they print: the same, which is looked at first. In each
/// round every input has its turn, so that a busy machine slows all of them.
pub fn measure(programs: &[PathBuf; 2], inputs: &[Vec<u8>], rounds: usize) -> Vec<([Vec<Duration>; 2], usize)> {
    let folder = env::temp_dir().join(format!("faltxigor-{}", process::id()));
    fs::create_dir_all(&folder).expect("a folder for the inputs");
    let files: Vec<PathBuf> = (0..inputs.len()).map(|place| folder.join(format!("{place}.input"))).collect();
    files.iter().zip(inputs).for_each(|(file, input)| fs::write(file, input).expect("a file for the input"));
    let lines: Vec<usize> = files.iter().map(|file| lines_of(programs, file)).collect();
    let mut times = vec![[vec![], vec![]]; inputs.len()];
    for _ in 0..rounds {
        for (file, times) in files.iter().zip(&mut times) {
            times.iter_mut().zip(programs).for_each(|(times, program)| times.push(run(program, file).0));
        }
    }
    fs::remove_dir_all(&folder).expect("the folder goes");
    times.into_iter().zip(lines).collect()
}

fn lines_of(programs: &[PathBuf; 2], file: &Path) -> usize {
    let printed = [0, 1].map(|program| run(&programs[program], file).1);
    assert!(printed[0] == printed[1], "the programs print other lines");
    printed[0].iter().filter(|byte| **byte == b'\n').count()
}

fn run(program: &Path, file: &Path) -> (Duration, Vec<u8>) {
    let input = File::open(file).expect("the input");
    let mut command = Command::new(program);
    command.stdin(input).stdout(Stdio::piped());
    let began = Instant::now();
    let output = command.output().unwrap_or_else(|error| panic!("{}: {error}", program.display()));
    let time = began.elapsed();
    assert!(output.status.success(), "{} fails", program.display());
    (time, output.stdout)
}
