use std::io::{self, Read, Write};

use compare::layout::WORDS;
use compare::words::from_words;
use compare::Memory;
use second::number::{number_bytes, number_value};
use second::operation::field_count;
use second::record::{read_first, read_record};
use second::sheet::MAX_SHEET;
use second::{Answer, Edition, Operation};

/// A sheet on standard input, its records run as single operations through the library: what the sheet program prints,
/// but the second engine reads the records. So tests/sheets.py can hold the library to the lines worked out by hand.
/// With `--sound` the calls go through `apply_sound`.
fn main() -> io::Result<()> {
    let skips = std::env::args().any(|word| word == "--sound");
    let mut sheet = vec![];
    io::stdin().lock().take(MAX_SHEET as u64).read_to_end(&mut sheet)?;
    let mut memory = Memory::new(vec![0; WORDS]);
    assert_eq!(memory.fresh(), 0);
    let mut lines = String::new();
    match read_first(&sheet) {
        Ok((edition, used)) => run(&mut memory, &sheet[used..], edition, skips, &mut lines),
        Err(refused) => lines.push_str(&format!("0 {refused} 0\n")),
    }
    let session = from_words(memory.words()).expect("the library left words that are no session");
    let (live, undelivered) = (session.live_tasks(), session.undelivered_links());
    lines.push_str(&format!("{live} {undelivered} {}\n", session.dropped()));
    io::stdout().lock().write_all(lines.as_bytes())
}

fn run(memory: &mut Memory, mut rest: &[u8], edition: Edition, skips: bool, lines: &mut String) {
    let mut record = 0u64;
    while !rest.is_empty() {
        record += 1;
        let (operation, used) = match read_record(rest, edition) {
            Ok(read) => read,
            // The library meets an unknown code too. A single call has no edition: what only a later one knows is no call.
            Err(6) if field_count(code_of(rest)).is_none() => {
                (Operation { code: code_of(rest), fields: [0; 5] }, rest.len())
            }
            Err(refused) => return lines.push_str(&format!("{record} {refused} 0\n")),
        };
        let Answer { refused, made } = if skips { memory.apply_sound(&operation) } else { memory.apply(&operation) };
        lines.push_str(&format!("{record} {refused} {made}\n"));
        rest = &rest[used..];
    }
}

fn code_of(record: &[u8]) -> u64 {
    number_bytes(record).and_then(number_value).expect("a code that was read")
}
