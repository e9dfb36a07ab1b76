//! The C functions of include/faltxigor.h, the engine without check 2 beside them, and a safe wrapper.

use crate::layout::WORDS;
use second::{Answer, Operation};
use std::cell::Cell;

extern "C" {
    fn faltxigor_fresh(memory: *mut u64, words: usize) -> u64;
    fn faltxigor_sound(memory: *const u64, words: usize) -> u64;
    fn faltxigor_apply(
        memory: *mut u64,
        words: usize,
        code: u64,
        f0: u64,
        f1: u64,
        f2: u64,
        f3: u64,
        f4: u64,
        made: *mut u64,
    ) -> u64;
    fn faltxigor_run(
        sheet: *const u8,
        sheet_bytes: usize,
        memory: *mut u64,
        words: usize,
        lines: *mut u8,
        line_bytes: usize,
        used: *mut usize,
        place: *mut usize,
        number: *mut u64,
    ) -> u64;
    fn faltxigor_last_line(
        memory: *const u64,
        words: usize,
        lines: *mut u8,
        line_bytes: usize,
        used: *mut usize,
    ) -> u64;
    fn faltxigor_class(
        file: *const u8,
        file_bytes: usize,
        state: *mut u64,
        state_words: usize,
        memory: *mut u64,
        words: usize,
        lines: *mut u8,
        line_bytes: usize,
        used: *mut usize,
    ) -> u64;
}

// Not of the header and offered to nobody: the crate `unchecked`, which is for measuring and comparison alone.
extern "C" {
    fn unchecked_apply(
        memory: *mut u64,
        words: usize,
        code: u64,
        f0: u64,
        f1: u64,
        f2: u64,
        f3: u64,
        f4: u64,
        made: *mut u64,
    ) -> u64;
}

/// How a sheet's run ended: the length of the lines, the place in the sheet, the record begun last, and the refusal.
#[derive(Clone, Copy, Debug, PartialEq, Eq)]
pub struct Ended {
    pub used: usize,
    pub place: usize,
    pub number: u64,
    pub ending: u64,
}

/// What is known of the words, for calls that skip checks 1 and 2.
#[derive(Clone, Copy, Debug, PartialEq, Eq)]
enum Known {
    Nothing,
    /// Sound as they are now; a call may change that (docs/DECISIONS.md, "Kept").
    SoundNow,
    /// Fresh, and since then changed by calls alone, which keep such a session sound.
    Kept,
}

/// Memory that is lent to the library.
#[derive(Clone, Debug)]
pub struct Memory {
    words: Vec<u64>,
    known: Cell<Known>,
}

impl Memory {
    /// Any words at all.
    pub fn new(words: Vec<u64>) -> Memory {
        Memory { words, known: Cell::new(Known::Nothing) }
    }

    pub fn words(&self) -> &[u64] {
        &self.words
    }

    /// Other words in place of these, in the same vector.
    pub fn load(&mut self, words: &[u64]) {
        self.words.clear();
        self.words.extend_from_slice(words);
        self.known.set(Known::Nothing);
    }

    /// Another memory's words and what is known of them, without allocating.
    pub fn copy_from(&mut self, other: &Memory) {
        self.words.copy_from_slice(&other.words);
        self.known.set(other.known.get());
    }

    /// Write a fresh session: the refusal, 0 if done.
    pub fn fresh(&mut self) -> u64 {
        // SAFETY: the pointer and the length are those of one vector, which is lent for the call.
        let refused = unsafe { faltxigor_fresh(self.words.as_mut_ptr(), self.words.len()) };
        if refused == 0 {
            self.known.set(Known::Kept);
        }
        refused
    }

    pub fn sound(&self) -> bool {
        // SAFETY: as in `fresh`; the words are only read.
        let sound = truth(unsafe { faltxigor_sound(self.words.as_ptr(), self.words.len()) });
        if sound && self.known.get() == Known::Nothing {
            self.known.set(Known::SoundNow);
        }
        sound
    }

    /// One operation on any words.
    pub fn apply(&mut self, operation: &Operation) -> Answer {
        let [f0, f1, f2, f3, f4] = operation.fields;
        // Not 0, so that a call that forgets to write it is seen.
        let mut made = u64::MAX;
        let (memory, words) = (self.words.as_mut_ptr(), self.words.len());
        // SAFETY: as in `fresh`; `made` is a variable of its own.
        let refused = unsafe { faltxigor_apply(memory, words, operation.code, f0, f1, f2, f3, f4, &mut made) };
        self.after(refused, made)
    }

    /// One operation on words that are known to be a sound session: `sound` said so, or they are `Kept`.
    pub fn apply_sound(&mut self, operation: &Operation) -> Answer {
        assert!(self.known.get() != Known::Nothing, "apply_sound on words that are not known to be sound");
        assert!(self.words.len() >= WORDS);
        let [f0, f1, f2, f3, f4] = operation.fields;
        let mut made = u64::MAX;
        let (memory, words) = (self.words.as_mut_ptr(), self.words.len());
        // SAFETY: as in `apply`, and the words are a sound session of sufficient length.
        let refused = unsafe { unchecked_apply(memory, words, operation.code, f0, f1, f2, f3, f4, &mut made) };
        self.after(refused, made)
    }

    /// A sheet on any words, its lines behind the used part of `lines`.
    pub fn run(&mut self, sheet: &[u8], lines: &mut [u8], used: usize) -> Ended {
        // Not what they are to be, so that a call that forgets to write one is seen.
        let mut ended = Ended { used, place: usize::MAX, number: u64::MAX, ending: u64::MAX };
        let (memory, words) = (self.words.as_mut_ptr(), self.words.len());
        // SAFETY: as in `fresh`, of three slices; the numbers are variables of their own.
        ended.ending = unsafe {
            faltxigor_run(
                sheet.as_ptr(),
                sheet.len(),
                memory,
                words,
                lines.as_mut_ptr(),
                lines.len(),
                &mut ended.used,
                &mut ended.place,
                &mut ended.number,
            )
        };
        if self.known.get() == Known::SoundNow {
            self.known.set(Known::Nothing);
        }
        ended
    }

    /// The last line behind the used part of `lines`: the refusal and the lines' length.
    pub fn last_line(&self, lines: &mut [u8], mut used: usize) -> (u64, usize) {
        let (memory, words) = (self.words.as_ptr(), self.words.len());
        // SAFETY: as in `run`; the words are only read.
        let refused = unsafe { faltxigor_last_line(memory, words, lines.as_mut_ptr(), lines.len(), &mut used) };
        (refused, used)
    }

    /// A part of a class report, into the start of `lines`: the refusal and the lines' length.
    pub fn class(&mut self, file: &[u8], state: &mut [u64], lines: &mut [u8]) -> (u64, usize) {
        // Not what it is to be, so that a call that forgets to write it is seen.
        let mut used = usize::MAX;
        let (memory, words) = (self.words.as_mut_ptr(), self.words.len());
        // SAFETY: as in `fresh`, of four slices; the number is a variable of its own.
        let refused = unsafe {
            faltxigor_class(
                file.as_ptr(),
                file.len(),
                state.as_mut_ptr(),
                state.len(),
                memory,
                words,
                lines.as_mut_ptr(),
                lines.len(),
                &mut used,
            )
        };
        if refused == 0 {
            self.known.set(Known::Kept);
        }
        (refused, used)
    }

    /// The answer; an accepted call may leave a session that has to be asked about again.
    fn after(&mut self, refused: u64, made: u64) -> Answer {
        if refused == 0 && self.known.get() == Known::SoundNow {
            self.known.set(Known::Nothing);
        }
        Answer { refused: u32::try_from(refused).expect("a refusal is at most 24"), made }
    }
}

/// A number that says yes or no.
fn truth(number: u64) -> bool {
    assert!(number <= 1, "neither 0 nor 1: {number}");
    number == 1
}
