//! The two engines side by side.

use crate::layout::{Field, WORDS};
use crate::library::Memory;
use crate::words::write_words;
use second::{Answer, Operation, Session};

/// Which function of the library a call goes through.
#[derive(Clone, Copy, Debug, PartialEq, Eq)]
pub enum Through {
    /// Check 2 first, in both engines.
    Apply,
    ApplySound,
}

/// A session of the second engine, and the same one in memory lent to the library.
pub struct Pair {
    pub second: Session,
    pub memory: Memory,
    /// What the memory has to be: the second engine's session, and behind it words that no call may touch.
    expected: Vec<u64>,
    pub calls: u64,
}

/// Words behind the layout.
const BEHIND: [u64; 3] = [u64::MAX, 1, 0x0123_4567_89AB_CDEF];

impl Pair {
    /// A fresh session, written by the library over words that are not zero.
    pub fn fresh() -> Pair {
        let mut words = vec![u64::MAX; WORDS];
        words.extend(BEHIND);
        let mut memory = Memory::new(words);
        assert_eq!(memory.fresh(), 0);
        let pair = Pair::with(Session::fresh(), memory);
        pair.compare("the fresh session");
        pair
    }

    /// A session of the second engine, lent to the library.
    pub fn of(session: Session) -> Pair {
        let mut words = vec![0; WORDS];
        words.extend(BEHIND);
        write_words(&session, &mut words);
        Pair::with(session, Memory::new(words))
    }

    fn with(second: Session, memory: Memory) -> Pair {
        let mut expected = vec![0; WORDS];
        expected.extend(BEHIND);
        write_words(&second, &mut expected);
        Pair { second, memory, expected, calls: 0 }
    }

    /// One call on both: the same answer, and the same session after it.
    #[track_caller]
    pub fn call(&mut self, operation: &Operation, through: Through) -> Answer {
        let (wanted, got) = match through {
            Through::Apply => (self.second.apply_checked(operation), self.memory.apply(operation)),
            Through::ApplySound => (self.second.apply(operation), self.memory.apply_sound(operation)),
        };
        self.calls += 1;
        assert_eq!(got, wanted, "{through:?} of {operation:?}: left the library, right the second engine");
        if wanted.refused == 0 {
            write_words(&self.second, &mut self.expected);
        }
        self.compare(&format_args!("{through:?} of {operation:?}"));
        wanted
    }

    #[track_caller]
    fn compare(&self, after: &(impl std::fmt::Display + ?Sized)) {
        if let Some((place, got, wanted)) = difference(self.memory.words(), &self.expected) {
            panic!("after {after}: {place} is {got} in the library, {wanted} in the second engine");
        }
    }
}

/// The first word that differs, named by its field.
fn difference(got: &[u64], wanted: &[u64]) -> Option<(String, u64, u64)> {
    if got == wanted {
        return None;
    }
    assert_eq!(got.len(), wanted.len());
    let word = (0..got.len()).find(|word| got[*word] != wanted[*word])?;
    let name = if word < WORDS { format!("{:?}", Field::of(word)) } else { format!("word {word} past the layout") };
    Some((name, got[word], wanted[word]))
}
