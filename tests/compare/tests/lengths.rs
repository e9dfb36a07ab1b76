//! Memory of every awkward length, and words behind the layout.

use compare::layout::WORDS;
use compare::words::to_words;
use compare::Memory;
use second::{Answer, Operation, Session};

fn some_calls() -> Vec<Operation> {
    let odd = [0, 14, u64::MAX].map(|code| Operation { code, fields: [u64::MAX; 5] });
    odd.into_iter().chain((1..=13).map(|code| Operation::new(code, &[2, 1, 1, 1, 1]))).collect()
}

/// "1. Session memory is shorter than docs/ says": nothing is written, whatever the words are. 40,518 were enough before
/// there were counts.
#[test]
fn too_short() {
    let session = to_words(&Session::fresh());
    for length in [0, 1, 2, 3, 4, 513, 516, 7_698, 32_322, 40_517, 40_518, 40_519, 41_000, WORDS - 2, WORDS - 1] {
        for words in [session[..length].to_vec(), vec![0; length], vec![u64::MAX; length]] {
            let mut memory = Memory::new(words.clone());
            assert!(!memory.sound(), "{length} words");
            assert_eq!(memory.fresh(), 1, "{length} words");
            for operation in some_calls() {
                assert_eq!(memory.apply(&operation), Answer { refused: 1, made: 0 }, "{length} words: {operation:?}");
            }
            assert!(memory.words() == words, "{length} words: written to");
        }
    }
}

/// Longer memory is a session by its first words, and the others are the caller's own.
#[test]
fn long_enough() {
    for length in [WORDS, WORDS + 1, WORDS + 2, 42_000, 65_536] {
        let behind = |place: usize| (place as u64).wrapping_mul(0x9E37_79B9_7F4A_7C15);
        let mut memory = Memory::new((0..length).map(behind).collect());
        assert!(!memory.sound());
        assert_eq!(memory.fresh(), 0, "{length} words");
        let mut session = Session::fresh();
        let calls: [&[u64]; 8] =
            [&[10, 2], &[11, 2], &[1, 2, 1], &[2, 2, 3, 17, 0, 1], &[4, 2, 1], &[13, 2, 16], &[9, 1], &[12, 2, 6]];
        for (number, numbers) in calls.iter().enumerate() {
            let operation = Operation::new(numbers[0], &numbers[1..]);
            let got = if number % 2 == 0 { memory.apply(&operation) } else { memory.apply_sound(&operation) };
            assert_eq!(got, session.apply(&operation), "{length} words: {operation:?}");
            assert!(memory.words()[..WORDS] == to_words(&session), "{length} words: {operation:?}");
            assert!(memory.sound());
        }
        let past = &memory.words()[WORDS..];
        assert!(past.iter().zip(WORDS..).all(|(word, place)| *word == behind(place)), "{length} words");
    }
}
