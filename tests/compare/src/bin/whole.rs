use std::io::{self, Read, Write};

use compare::layout::WORDS;
use compare::Memory;
use second::sheet::MAX_SHEET;

/// A sheet on standard input, run whole by the library: what the sheet program prints. So tests/sheets.py can hold
/// `faltxigor_run` and `faltxigor_last_line` to the lines worked out by hand.
fn main() -> io::Result<()> {
    let mut sheet = vec![];
    io::stdin().lock().take(MAX_SHEET as u64).read_to_end(&mut sheet)?;
    let mut memory = Memory::new(vec![0; WORDS]);
    assert_eq!(memory.fresh(), 0);
    // A record takes two bytes at least, and a line 32 at most.
    let mut lines = vec![0; 16 * sheet.len() + 128];
    let ended = memory.run(&sheet, &mut lines, 0);
    let (refused, used) = memory.last_line(&mut lines, ended.used);
    assert!(ended.ending != 1 && refused == 0, "lines memory too short");
    io::stdout().lock().write_all(&lines[..used])
}
