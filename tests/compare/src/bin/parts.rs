use std::io::{self, Read, Write};

use compare::layout::WORDS;
use compare::{reports, Memory};

/// A class file on standard input, reported by the library with line memory for one line. So tests/classes.py can hold
/// `faltxigor_class` to the reports worked out by hand.
fn main() -> io::Result<()> {
    let mut file = vec![];
    io::stdin().lock().read_to_end(&mut file)?;
    let mut report = vec![];
    reports::report(&mut Memory::new(vec![0; WORDS]), &file, &mut [0; 128], &mut report);
    io::stdout().lock().write_all(&report)
}
