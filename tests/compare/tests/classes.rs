//! `faltxigor_class` on any memory: from words that are 0 its parts are what the second engine reports, whatever line
//! memory is lent; from any other words it answers, and always the same.

use compare::layout::WORDS;
use compare::reports::{class_of, turns_of, CLASS_WORDS, NOTHING};
use compare::words::to_words;
use compare::Memory;
use second::classes::Classes;
use second::random::Random;
use second::sheets::{random_sheet_of, short_sheet};
use second::{class, run_over, Edition, Session};

/// Bytes of line memory: the fewest that are taken, one more, more than one line and less than two, and many lines.
const SIZES: [usize; 4] = [128, 129, 200, 16_384];

/// Long sheets are of the one and the other by turns; of the short ones two of five are of edition 2.
const EDITIONS: [Edition; 2] = [Edition::First, Edition::Second];

/// Words past those that are used.
const PAST: usize = 3;

/// The highest code of what comes next: the line of the pending sheet.
const LINE: u64 = 8;

fn noise(random: &mut Random, count: usize) -> Vec<u64> {
    (0..count).map(|_| random.draw()).collect()
}

fn noise_bytes(random: &mut Random, count: usize) -> Vec<u8> {
    (0..count).map(|_| random.draw() as u8).collect()
}

/// One call, after which only the first words of the state and of the memory may differ, and the bytes of the lines
/// that it says; what they are.
fn checked_part(memory: &mut Memory, file: &[u8], state: &mut [u64], lines: &mut [u8]) -> Vec<u8> {
    let (past, state_past, were) = (memory.words()[WORDS..].to_vec(), state[CLASS_WORDS..].to_vec(), lines.to_vec());
    let (refused, used) = memory.class(file, state, lines);
    assert_eq!(refused, 0);
    assert!(used <= lines.len(), "{used} bytes in {}", lines.len());
    assert!(state[0] <= LINE && state[1] <= file.len() as u64, "{state:?}");
    assert!(state[0] == NOTHING || used + 128 > lines.len(), "a part ended with room for a line");
    assert!(memory.words()[WORDS..] == past, "memory past the layout was changed");
    assert!(state[CLASS_WORDS..] == state_past, "words past the state were changed");
    assert!(lines[used..] == were[used..], "bytes past the lines were changed");
    lines[..used].to_vec()
}

/// All parts from where the words say; of a file of n bytes there are at most 5 n + 5.
fn checked_parts(
    file: &[u8],
    state: &mut [u64],
    mut lend: impl FnMut() -> usize,
    memory: &mut Memory,
    random: &mut Random,
) -> Vec<u8> {
    let mut report = vec![];
    let mut calls = 0;
    while calls == 0 || state[0] != NOTHING {
        let mut lines = noise_bytes(random, lend());
        report.extend(checked_part(memory, file, state, &mut lines));
        calls += 1;
        assert!(calls <= 5 * file.len() + 5, "no end");
    }
    report
}

fn cleared(random: &mut Random) -> Vec<u64> {
    let mut state = noise(random, CLASS_WORDS + PAST);
    state[..CLASS_WORDS].fill(0);
    state
}

#[test]
fn as_the_second_engine() {
    let mut random = Random::new(22);
    // Sessions are written into it again and again; at first it is noise.
    let mut memory = Memory::new(noise(&mut random, WORDS + PAST));
    let mut stops = 0;
    for seed in 0..3 {
        let classes = Classes::new(seed);
        for index in 0..200 {
            let file = classes.class(index);
            let mut wanted = vec![];
            class::report(&file, &mut wanted);
            stops += usize::from(wanted.windows(5).any(|word| word == b"stop "));
            for size in SIZES {
                let mut state = cleared(&mut random);
                let got = checked_parts(&file, &mut state, || size, &mut memory, &mut Random::new(index));
                assert!(got == wanted, "class {index} of seed {seed} in lines of {size} bytes");
            }
            let (mut state, mut sizes) = (cleared(&mut random), Random::new(index));
            let got = checked_parts(&file, &mut state, || sizes.among(&SIZES), &mut memory, &mut Random::new(index));
            assert!(got == wanted, "class {index} of seed {seed} in lines of any size");
        }
    }
    println!("600 class files, {stops} of them with a stop");
    assert!(stops > 200 && stops < 400, "{stops}");
}

/// The memory holds the session of the last sheet that the part ran, or a fresh one.
#[test]
fn the_session_that_is_left() {
    let mut random = Random::new(23);
    for count in 0..40 {
        let mut sheets: Vec<Vec<u8>> = (0..count % 5).map(|_| short_sheet(&mut random)).collect();
        if count % 4 == 3 {
            sheets.push(random_sheet_of(EDITIONS[count as usize / 4 % 2], 23, count));
        }
        let mut session = Session::fresh();
        sheets.last().map(|sheet| run_over(&mut session, sheet));
        let mut memory = Memory::new(noise(&mut random, WORDS + PAST));
        let mut state = cleared(&mut random);
        checked_part(&mut memory, &class_of(&sheets), &mut state, &mut [0; 4_096]);
        assert_eq!(state[0], NOTHING);
        assert!(memory.words()[..WORDS] == to_words(&session), "{} sheets", sheets.len());
        assert!(memory.sound());
        // Nothing is left: no line more, and a fresh session.
        let stood = state.clone();
        assert!(checked_part(&mut memory, &class_of(&sheets), &mut state, &mut [0; 128]).is_empty());
        assert!(state[1] == stood[1] && memory.words()[..WORDS] == to_words(&Session::fresh()));
    }
}

/// Of a learner's turns only the one that counts is run: the session left is its, though another came last.
#[test]
fn the_session_of_the_turn_that_counts() {
    let mut random = Random::new(26);
    for highest in 0..6 {
        let sheets: Vec<Vec<u8>> =
            (0..6).map(|index| random_sheet_of(EDITIONS[index as usize % 2], 26, 6 * highest + index)).collect();
        let turns: Vec<u64> = (0..6).map(|index| if index == highest { 9 } else { random.below(9) }).collect();
        let file = turns_of(&[turns.iter().copied().zip(sheets.iter().cloned()).collect()]);
        let mut session = Session::fresh();
        run_over(&mut session, &sheets[highest as usize]);
        let mut memory = Memory::new(noise(&mut random, WORDS + PAST));
        checked_part(&mut memory, &file, &mut cleared(&mut random), &mut [0; 4_096]);
        assert!(memory.words()[..WORDS] == to_words(&session), "turns {turns:?}");
    }
}

/// Words of any kind in the state: mostly a stage, and places and numbers of all widths.
fn any_state(random: &mut Random, file: &[u8]) -> Vec<u64> {
    let mut state: Vec<u64> = (0..CLASS_WORDS + PAST).map(|_| random.draw() >> random.below(65).min(63)).collect();
    if random.percent(90) {
        state[0] = random.below(10);
    }
    if random.percent(80) {
        state[1] = random.below(file.len() as u64 + 2);
    }
    if random.percent(50) {
        state[2..4].copy_from_slice(&random.among(&[[0, 1], [5, 128], [0, 0], [u64::MAX, u64::MAX], [1, 1 << 28]]));
    }
    for word in 4..CLASS_WORDS {
        if random.percent(30) {
            state[word] = random.among(&[0, 1, 2, 32_768, 32_769, u64::MAX - 1, u64::MAX]);
        }
    }
    state
}

#[test]
fn from_any_words() {
    let mut random = Random::new(24);
    let mut memories = [0, 1].map(|_| Memory::new(noise(&mut random, WORDS + PAST)));
    let classes = Classes::new(24);
    let (mut lines_of, mut stages) = (0, [0; 10]);
    for index in 0..600 {
        let file = classes.class(index);
        for _ in 0..5 {
            let state = any_state(&mut random, &file);
            stages[state[0].min(9) as usize] += 1;
            let size = random.among(&SIZES);
            // The same words and lines, and another memory: the same answer, of one part and of all.
            let answers: Vec<_> = memories
                .iter_mut()
                .map(|memory| {
                    let (mut state, mut lines) = (state.clone(), vec![170; size]);
                    let first = checked_part(memory, &file, &mut state, &mut lines);
                    let stood = state.clone();
                    let rest = checked_parts(&file, &mut state, || size, memory, &mut Random::new(index));
                    (first, lines, stood, rest, state)
                })
                .collect();
            assert!(answers[0] == answers[1], "from {state:?} in lines of {size} bytes");
            lines_of += answers[0].0.iter().chain(&answers[0].3).filter(|byte| **byte == b'\n').count();
        }
    }
    println!("{lines_of} lines; states by their stage, the last of them none: {stages:?}");
    assert!(lines_of > 3_000 && stages.iter().all(|count| *count > 50), "{lines_of} {stages:?}");
}

/// "1": under 18 words, under 128 bytes of lines, or too short a session memory, whatever else is lent.
#[test]
fn too_short() {
    let mut random = Random::new(25);
    let file = class_of(&[short_sheet(&mut random), vec![1]]);
    let whole = [CLASS_WORDS, WORDS, 128];
    let shorter = [[CLASS_WORDS - 1, 1, 0], [WORDS - 1, 4, 0], [127, 32, 0]];
    for (which, lengths) in shorter.iter().enumerate() {
        for length in lengths {
            let mut lent = whole;
            lent[which] = *length;
            for zero in [true, false] {
                let mut state = if zero { vec![0; lent[0]] } else { noise(&mut random, lent[0]) };
                let mut memory = Memory::new(noise(&mut random, lent[1]));
                let mut lines = noise_bytes(&mut random, lent[2]);
                let were = (state.clone(), memory.words().to_vec(), lines.clone());
                assert_eq!(memory.class(&file, &mut state, &mut lines), (1, 0), "{lent:?}");
                assert!((state, memory.words().to_vec(), lines) == were, "{lent:?}: something was changed");
            }
        }
    }
}
