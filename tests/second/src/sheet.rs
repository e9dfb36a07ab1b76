//! Running sheets.

use crate::edition::Edition;
use crate::lines::{answer_line, last_line};
use crate::operation::{Answer, Operation};
use crate::record::{read_first, read_record};
use crate::session::Session;

/// "whose first 32,768 bytes at most are the sheet".
pub const MAX_SHEET: usize = 32_768;

/// The sheet program: what it prints for these bytes of standard input.
pub fn run_sheet(input: &[u8]) -> Vec<u8> {
    let mut session = Session::fresh();
    let sheet = &input[..input.len().min(MAX_SHEET)];
    let mut lines = run_records(&mut session, sheet, false);
    lines.push_str(&last_line(&session));
    lines.into_bytes()
}

/// The answer lines of a run over a lent session of any kind, without the last line. Check 2 comes before the first
/// number (reading 6) and before each record (reading 16).
pub fn run_over(session: &mut Session, sheet: &[u8]) -> Vec<u8> {
    run_records(session, sheet, true).into_bytes()
}

/// The answer lines of a run, as they are printed.
fn run_records(session: &mut Session, sheet: &[u8], lent: bool) -> String {
    let mut lines = String::new();
    run_each(session, sheet, lent, |record, _, answer| lines.push_str(&answer_line(record, answer)));
    lines
}

/// Run a sheet and hand on each answer: the record's number, its operation (`None` if it could not be read), the
/// answer. "Refusals 2 to 6 end the sheet with that line, numbered as the record begun (0 for the first number)".
pub(crate) fn run_each(
    session: &mut Session,
    sheet: &[u8],
    lent: bool,
    mut answered: impl FnMut(u64, Option<Operation>, Answer),
) {
    let (edition, mut rest) = match begin(session, sheet, lent) {
        Ok((edition, used)) => (edition, &sheet[used..]),
        Err(refused) => return answered(0, None, Answer { refused, made: 0 }),
    };
    let mut record = 0;
    while !rest.is_empty() {
        record += 1;
        match step(session, rest, edition, lent) {
            Ok((operation, answer, used)) => {
                answered(record, Some(operation), answer);
                rest = &rest[used..];
            }
            Err(refused) => return answered(record, None, Answer { refused, made: 0 }),
        }
    }
}

fn begin(session: &Session, sheet: &[u8], lent: bool) -> Result<(Edition, usize), u32> {
    if lent && !session.is_sound() {
        return Err(2);
    }
    read_first(sheet)
}

/// Run the record that begins here: its operation, answer and length, or the refusal that ends the sheet.
fn step(session: &mut Session, rest: &[u8], edition: Edition, lent: bool) -> Result<(Operation, Answer, usize), u32> {
    if lent && !session.is_sound() {
        return Err(2);
    }
    let (operation, used) = read_record(rest, edition)?;
    Ok((operation, session.apply(&operation), used))
}
