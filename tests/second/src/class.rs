//! The class report: requests E1 and E2 of document 02.

use std::io::Write;

use crate::operation::{Answer, Operation};
use crate::record::read_number;
use crate::session::Session;
use crate::sheet::{run_each, MAX_SHEET};

/// "22, a length above 32,768 or past the end".
const BAD_LENGTH: u32 = 22;

/// "23, a learner number lower than the one before it in the file".
const LEARNER_FALLS: u32 = 23;

/// The operation that starts a task.
const START: u64 = 11;

/// "records (answer lines), refused records (lines with a refusal, line 0 too), starts and dropped", of one sheet or
/// summed.
#[derive(Clone, Copy, Debug, Default, PartialEq, Eq)]
pub struct Tally {
    pub records: u64,
    pub refused: u64,
    pub starts: u64,
    pub dropped: u64,
}

impl Tally {
    /// "no count past its width's largest"
    fn add(&mut self, sheet: &Tally) {
        self.records = self.records.saturating_add(sheet.records);
        self.refused = self.refused.saturating_add(sheet.refused);
        self.starts = self.starts.saturating_add(sheet.starts);
        self.dropped = self.dropped.saturating_add(sheet.dropped);
    }

    fn answered(&mut self, operation: Option<Operation>, answer: Answer) {
        self.records += 1;
        if answer.refused != 0 {
            self.refused += 1;
        } else if operation.is_some_and(|operation| operation.code == START) {
            self.starts += 1;
        }
    }
}

/// A turned-in sheet, and the numbers before it in the file.
#[derive(Clone, Copy, Debug, PartialEq, Eq)]
pub struct Entry<'a> {
    /// Which one of the file's entries it is, from 0.
    pub place: u64,
    pub learner: u64,
    pub turn: u64,
    pub sheet: &'a [u8],
}

impl Entry<'_> {
    /// "For one learner the sheet with the higher turn counts; of equal turns the later in the file."
    pub fn supersedes(&self, other: &Entry) -> bool {
        self.learner == other.learner && (self.turn, self.place) > (other.turn, other.place)
    }
}

/// "Of two turned-in sheets the call hands back the one that supersedes, as the lender's own bytes": both by one
/// learner, `first` the earlier in the file.
pub fn superseding<'a>(first: &'a [u8], first_turn: u64, second: &'a [u8], second_turn: u64) -> &'a [u8] {
    if second_turn >= first_turn {
        second
    } else {
        first
    }
}

/// The class program: what it prints for this file, put behind what `out` has.
pub fn report(file: &[u8], out: &mut Vec<u8>) {
    out.extend_from_slice(b"class 1\n");
    let mut entries = vec![];
    let end = read_entries(file, &mut entries);
    // "A stop first prints the line of the learner still pending": that one's entries are in the list too.
    let sums = list_sheets(&entries, out);
    match end {
        Ok(()) => write_line(&[sums.records, sums.refused, sums.starts, sums.dropped], out),
        Err(stop) => {
            out.extend_from_slice(b"stop ");
            write_line(&[u64::from(stop)], out);
        }
    }
}

/// The entries, up to the one with a bad number, length or learner; the number of the stop line if there is such a
/// one. Bytes after the last sheet are not looked at.
pub fn read_entries<'a>(file: &'a [u8], entries: &mut Vec<Entry<'a>>) -> Result<(), u32> {
    let mut rest = file;
    for place in 0..take_number(&mut rest)? {
        let learner = take_number(&mut rest)?;
        let turn = take_number(&mut rest)?;
        let sheet = take_sheet(&mut rest)?;
        if entries.last().is_some_and(|before| learner < before.learner) {
            return Err(LEARNER_FALLS);
        }
        entries.push(Entry { place, learner, turn, sheet });
    }
    Ok(())
}

/// "The class report lists and sums superseding sheets only": the lines of these, and their sums.
fn list_sheets(entries: &[Entry], out: &mut Vec<u8>) -> Tally {
    let mut sums = Tally::default();
    for entry in listed(entries) {
        let tally = count_sheet(entry.sheet);
        sums.add(&tally);
        write_line(&[entry.learner, entry.turn, tally.records, tally.refused, tally.starts, tally.dropped], out);
    }
    sums
}

/// The entries that no other one supersedes, in the order of the file. Only the time relies on learners that rise (23):
/// the sorts are linear on what is in order already.
pub fn listed<'e, 'a>(entries: &'e [Entry<'a>]) -> Vec<&'e Entry<'a>> {
    let mut by_learner: Vec<&Entry> = entries.iter().collect();
    by_learner.sort_by_key(|entry| entry.learner);
    let mut listed: Vec<&Entry> =
        by_learner.chunk_by(|one, next| one.learner == next.learner).map(counting_entry).collect();
    listed.sort_by_key(|entry| entry.place);
    listed
}

/// The one of a learner's entries that none of the others supersedes.
fn counting_entry<'e, 'a>(entries: &[&'e Entry<'a>]) -> &'e Entry<'a> {
    entries.iter().fold(entries[0], |kept, entry| if entry.supersedes(kept) { entry } else { kept })
}

/// "3 and 4, met as each is read": one number, which is taken off the rest.
fn take_number(rest: &mut &[u8]) -> Result<u64, u32> {
    let (value, used) = read_number(rest)?;
    *rest = &rest[used..];
    Ok(value)
}

/// The length and the sheet, which are taken off the rest.
fn take_sheet<'a>(rest: &mut &'a [u8]) -> Result<&'a [u8], u32> {
    let length = take_number(rest)?;
    if length > MAX_SHEET as u64 || length > rest.len() as u64 {
        return Err(BAD_LENGTH);
    }
    let (sheet, after) = rest.split_at(length as usize);
    *rest = after;
    Ok(sheet)
}

/// "each run from fresh as the sheet program runs it": the answers are counted in place of being printed.
pub fn count_sheet(sheet: &[u8]) -> Tally {
    let mut session = Session::fresh();
    let mut tally = Tally::default();
    run_each(&mut session, sheet, false, |_, operation, answer| tally.answered(operation, answer));
    tally.dropped = session.dropped();
    tally
}

fn write_line(numbers: &[u64], out: &mut Vec<u8>) {
    for (place, number) in numbers.iter().enumerate() {
        let before = if place == 0 { "" } else { " " };
        write!(out, "{before}{number}").expect("memory takes every byte");
    }
    out.push(b'\n');
}
