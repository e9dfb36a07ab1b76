//! Every function of include/faltxigor.h on memory of any kind: whole and damaged sessions, short memory, noise. No call
//! dies, and each answers and leaves what the second engine says.

use compare::damage::{damage, reached};
use compare::layout::WORDS;
use compare::runs;
use compare::words::{from_words, to_words, write_words};
use compare::Memory;
use second::random::Random;
use second::steer::{Goal, Reach, Steer};
use second::{write_record, Answer, Edition, Operation, Session};

const EDITIONS: [Edition; 2] = [Edition::First, Edition::Second];

/// A session's words, or what is left of them.
fn draw_memory(random: &mut Random, session: &Session) -> Vec<u64> {
    let mut words = to_words(session);
    match random.below(12) {
        0 => words.iter_mut().for_each(|word| *word = random.draw()),
        1 => words.truncate(random.below(WORDS as u64) as usize),
        2 => drop(damage(random, session, &mut words, 40)),
        3..=6 => (),
        _ => {
            let count = random.among(&[1, 1, 1, 2, 3]);
            damage(random, session, &mut words, count);
        }
    }
    let behind = if words.len() == WORDS { random.below(3) } else { 0 };
    words.extend((0..behind).map(|_| random.draw()));
    words
}

/// Records that suit the session, sometimes cut, with a byte turned, a number longer than it need be or the other
/// edition's first number; and line memory of any length and used length.
fn draw_sheet(random: &mut Random, session: &Session) -> (Vec<u8>, Vec<u8>, usize) {
    let edition = random.among(&EDITIONS);
    let mut steer = Steer::new(Random::new(random.draw()), Reach::Records, Goal::Nothing, 1 << 40).in_edition(edition);
    steer.session.clone_from(session);
    let mut sheet = vec![edition.number() as u8];
    for _ in 0..random.below(12) {
        sheet.extend(write_record(&steer.next_call().0, edition.number()).expect("a record"));
    }
    let place = random.below(sheet.len() as u64) as usize;
    match random.below(8) {
        0 => sheet.truncate(place),
        1 => sheet[place] = random.draw() as u8,
        2 => drop(sheet.splice(place..=place, [sheet[place] | 128, 0])),
        3 => sheet[0] = 3 - sheet[0],
        _ => (),
    }
    let length = random.among(&[0, 31, 32, 33, 100, 600, 600, 600, 600, 600]);
    let lines: Vec<u8> = (0..length).map(|_| random.draw() as u8).collect();
    let used = random.among(&[0, 0, 0, 0, 0, 1, 7, length / 2, length, length + 1, usize::MAX]);
    (sheet, lines, used)
}

fn check_apply(words: &[u64], session: &Option<Session>, operation: &Operation) {
    let mut expected = words.to_vec();
    let wanted = match session {
        _ if words.len() < WORDS => Answer { refused: 1, made: 0 },
        None => Answer { refused: 2, made: 0 },
        Some(session) => {
            let mut session = session.clone();
            let answer = session.apply(operation);
            write_words(&session, &mut expected);
            answer
        }
    };
    let mut memory = Memory::new(words.to_vec());
    assert_eq!(memory.apply(operation), wanted, "{operation:?}");
    assert!(memory.words() == expected, "{operation:?}");
}

fn check_fresh(words: &[u64]) {
    let mut expected = words.to_vec();
    let refused = u64::from(words.len() < WORDS);
    if refused == 0 {
        expected[..WORDS].copy_from_slice(&to_words(&Session::fresh()));
    }
    let mut memory = Memory::new(words.to_vec());
    assert_eq!(memory.fresh(), refused);
    assert!(memory.words() == expected);
}

/// The refusal that ended the sheet.
fn check_run(words: &[u64], sheet: &[u8], lines: &[u8], used: usize) -> u64 {
    let (mut expected, mut wanted) = (words.to_vec(), lines.to_vec());
    let ended = runs::run(&mut expected, sheet, &mut wanted, used);
    let (mut memory, mut got) = (Memory::new(words.to_vec()), lines.to_vec());
    assert_eq!(memory.run(sheet, &mut got, used), ended, "left the library, right the second engine: {sheet:?}");
    assert!(got == wanted, "other lines: {sheet:?}, {used} used");
    assert!(memory.words() == expected, "another session: {sheet:?}");
    ended.ending
}

/// Words that the second engine's types cannot hold have a last line too: at most 32 bytes, and nothing else changes.
fn check_last_line(words: &[u64], lines: &[u8], used: usize) {
    let mut wanted = lines.to_vec();
    let ended = runs::last_line(words, &mut wanted, used);
    let mut got = lines.to_vec();
    let (refused, length) = Memory::new(words.to_vec()).last_line(&mut got, used);
    if let Some(ended) = ended {
        assert_eq!((refused, length), ended);
        assert!(got == wanted, "another last line");
    } else {
        assert!(refused == 0 && length > used && length <= used + 32);
        assert!(got[length - 1] == b'\n' && got[used..length].iter().filter(|byte| **byte == b' ').count() == 2);
        assert!(got[..used] == lines[..used] && got[length..] == lines[length..], "bytes beside the line changed");
    }
}

/// From sessions of lists of that edition.
fn check_reached(edition: Edition) {
    let mut endings = [0; 7];
    for seed in 0..160 {
        let session = reached(edition, seed, 5 + 3 * seed);
        let mut random = Random::part(seed, 10 + edition.number());
        for _ in 0..40 {
            let words = draw_memory(&mut random, &session);
            let sound = from_words(&words).filter(Session::is_sound);
            assert_eq!(Memory::new(words.clone()).sound(), sound.is_some());
            check_fresh(&words);
            let fields = [2, random.below(8), 1 + random.below(4), random.below(2), 1 + random.below(4)];
            check_apply(&words, &sound, &Operation { code: random.below(15), fields });
            let (sheet, lines, used) = draw_sheet(&mut random, &session);
            check_last_line(&words, &lines, used);
            endings[check_run(&words, &sheet, &lines, used) as usize] += 1;
        }
    }
    println!("sheets by their ending, 0 to 6: {endings:?}");
    assert!(endings.iter().all(|count| *count > 5), "{endings:?}");
}

#[test]
fn on_any_memory() {
    check_reached(Edition::First);
}

#[test]
fn on_any_memory_of_edition_2() {
    check_reached(Edition::Second);
}
