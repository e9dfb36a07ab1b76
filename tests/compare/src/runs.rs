//! A sheet's run over lent memory by the second engine, with line memory and its used length: what the library's run has
//! to leave, to the byte.

use crate::layout::WORDS;
use crate::library::Ended;
use crate::words::{from_words, write_words};
use second::lines;
use second::lines::answer_line;
use second::record::{read_first, read_record};
use second::{Answer, Edition, Session};

/// "the line or record memory has under 32 bytes free"
const ROOM: usize = 32;

/// Lent line memory with a used length: "one beyond the memory leaves nothing free".
struct Lines<'a> {
    bytes: &'a mut [u8],
    used: usize,
}

impl Lines<'_> {
    fn has_room(&self) -> bool {
        self.bytes.len().checked_sub(self.used).is_some_and(|free| free >= ROOM)
    }

    fn put(&mut self, line: &str) {
        self.bytes[self.used..][..line.len()].copy_from_slice(line.as_bytes());
        self.used += line.len();
    }

    /// "Refusals 2 to 6 end the sheet with that line [..]; 1 ends a run without a line".
    fn end(mut self, place: usize, number: u64, ending: u32) -> Ended {
        if ending > 1 {
            self.put(&answer_line(number, Answer { refused: ending, made: 0 }));
        }
        Ended { used: self.used, place, number, ending: u64::from(ending) }
    }
}

/// Any words, any sheet, any lines.
pub fn run(words: &mut [u64], sheet: &[u8], bytes: &mut [u8], used: usize) -> Ended {
    let mut lines = Lines { bytes, used };
    if words.len() < WORDS || !lines.has_room() {
        return lines.end(0, 0, 1);
    }
    let Some(mut session) = from_words(words).filter(Session::is_sound) else { return lines.end(0, 0, 2) };
    let (edition, mut place) = match read_first(sheet) {
        Ok(first) => first,
        Err(refused) => return lines.end(0, 0, refused),
    };
    let (mut number, mut ending) = (0, 0);
    while place < sheet.len() && ending == 0 {
        number += 1;
        match step(&mut session, &sheet[place..], edition, &lines) {
            Ok((answer, length)) => {
                lines.put(&answer_line(number, answer));
                place += length;
            }
            Err(refused) => ending = refused,
        }
    }
    write_words(&session, words);
    lines.end(place, number, ending)
}

/// Run the record that begins here: its answer and length, or the refusal that ends the sheet.
fn step(session: &mut Session, rest: &[u8], edition: Edition, lines: &Lines) -> Result<(Answer, usize), u32> {
    if !lines.has_room() {
        return Err(1);
    }
    if !session.is_sound() {
        return Err(2);
    }
    let (operation, length) = read_record(rest, edition)?;
    Ok((session.apply(&operation), length))
}

/// The last line of a session whose words are of some form, sound or not: the refusal and the lines' length.
pub fn last_line(words: &[u64], bytes: &mut [u8], used: usize) -> Option<(u64, usize)> {
    let mut lines = Lines { bytes, used };
    if words.len() < WORDS || !lines.has_room() {
        return Some((1, used));
    }
    lines.put(&lines::last_line(&from_words(words)?));
    Some((0, lines.used))
}
