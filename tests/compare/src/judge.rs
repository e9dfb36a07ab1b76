//! Words of any kind before both engines: whether they are a sound session, and the calls after that.

use crate::library::Memory;
use crate::pair::{Pair, Through};
use crate::words::from_words;
use second::random::Random;
use second::steer::{Goal, Reach, Steer};
use second::{Answer, Edition, Operation, Session};

/// What came of the words judged.
#[derive(Clone, Copy, Default, Debug)]
pub struct Found {
    pub sound: u64,
    pub unsound: u64,
    pub calls: u64,
    pub accepted: u64,
    /// Sound sessions that a call left unsound.
    pub turned: u64,
}

pub struct Judge {
    pub found: Found,
    random: Random,
    steer: Steer,
    memory: Memory,
}

/// Calls on a session that is sound.
const CALLS: u64 = 8;

impl Judge {
    pub fn new(seed: u64) -> Judge {
        // The list is planned to be longer than it gets, so that the last running task does not end.
        let steer = Steer::new(Random::part(seed, 1), Reach::Anything, Goal::Nothing, 1 << 40);
        Judge { found: Found::default(), random: Random::part(seed, 2), steer, memory: Memory::new(vec![]) }
    }

    /// The same with calls of that edition; they are of edition 1 if nothing is said.
    pub fn in_edition(self, edition: Edition) -> Judge {
        Judge { steer: self.steer.in_edition(edition), ..self }
    }

    /// Both judge the words alike. What is not sound both refuse with 2 and leave as it is; on what is sound calls
    /// follow.
    #[track_caller]
    pub fn judge(&mut self, words: &[u64]) {
        let session = from_words(words).filter(Session::is_sound);
        self.memory.load(words);
        let said = self.memory.sound();
        assert_eq!(said, session.is_some(), "left the library, right the second engine: {}", shown(words));
        match session {
            None => self.refuse(words),
            Some(session) => self.go_on(session),
        }
    }

    fn refuse(&mut self, words: &[u64]) {
        let operation = Operation { code: self.random.below(15), fields: [2, self.random.below(8), 1, 0, 1] };
        let answer = self.memory.apply(&operation);
        assert_eq!(answer, Answer { refused: 2, made: 0 }, "{operation:?}: {}", shown(words));
        assert!(self.memory.words() == words, "changed by a refusal: {}", shown(words));
        self.found.unsound += 1;
        self.found.calls += 1;
    }

    /// By the letter of document 01 a call may leave a session that is not sound (docs/DECISIONS.md, "Kept"); then both
    /// refuse the next one with 2.
    fn go_on(&mut self, session: Session) {
        let mut pair = Pair::of(session);
        self.found.sound += 1;
        for number in 0..CALLS {
            let sound = pair.memory.sound();
            assert_eq!(sound, pair.second.is_sound(), "after {number} calls: {:?}", pair.second);
            if !sound {
                pair.call(&Operation::new(12, &[2, 0]), Through::Apply);
                self.found.turned += 1;
                break;
            }
            self.steer.session.clone_from(&pair.second);
            let (operation, _) = self.steer.next_call();
            let through = if number % 2 == 1 { Through::ApplySound } else { Through::Apply };
            self.found.accepted += u64::from(pair.call(&operation, through).refused == 0);
        }
        self.found.calls += pair.calls;
    }
}

/// The words for a message, as the second engine reads them.
fn shown(words: &[u64]) -> String {
    format!("{} objects, {} links, {:?}", words[0], words[1], from_words(words))
}
