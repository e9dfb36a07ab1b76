//! Words of a session changed at random.

use crate::layout::{Field, SLOTS, WORDS};
use second::random::Random;
use second::steer::random_list;
use second::{Edition, Session};

/// A word of something that there is: of one that stands past the counts there is only to say that it is zero.
fn used_word(random: &mut Random, session: &Session) -> usize {
    let field = random.among(&Field::ALL);
    let place = match field {
        Field::Objects | Field::Links | Field::Dropped => 0,
        Field::LinkSource | Field::LinkTarget | Field::LinkSlot | Field::LinkState => {
            random.below(session.link_count() + 1)
        }
        Field::SlotMode | Field::SlotMark | Field::SlotPayload => used_slot(random, session),
        _ => random.below(session.object_count() + 1),
    };
    field.at(place as usize)
}

/// A slot of some task, or the one behind its last.
fn used_slot(random: &mut Random, session: &Session) -> u64 {
    let tasks: Vec<(u64, u64)> = session.tasks().map(|(handle, task)| (handle, task.slots.len() as u64)).collect();
    let (handle, slots) = random.among(&tasks);
    handle * SLOTS as u64 + random.below(slots + 1).min(SLOTS as u64 - 1)
}

/// A word to change, more often one that is not zero.
fn draw_word(random: &mut Random, session: &Session, words: &[u64]) -> usize {
    if random.percent(5) {
        return random.below(WORDS as u64) as usize;
    }
    let mut word = used_word(random, session);
    let mut tries = random.below(8);
    while words[word] == 0 && tries > 0 {
        word = used_word(random, session);
        tries -= 1;
    }
    word
}

/// Another number: a small one, a neighbour, a handle, one that the field has elsewhere, or a huge one; of a count
/// mostly one near what it is held against.
fn draw_value(random: &mut Random, session: &Session, words: &[u64], word: usize) -> u64 {
    let ((field, place), was) = (Field::of(word), words[word]);
    if field == Field::EventCount && random.percent(60) {
        return draw_count(random, session, place as u64);
    }
    match random.below(12) {
        0..=3 => random.below(7),
        4 | 5 => random.among(&[was.wrapping_add(1), was.wrapping_sub(1)]),
        6 | 7 => random.below(session.object_count() + 2),
        8 => words[field.at(random.below(field.row().places as u64) as usize)],
        9 => random.among(&[16, 17, 18, 512, 513, 2_048, 2_049, 8_207, 8_208, 32_766, 32_767, 32_768, 65_534, 65_535]),
        10 => random.among(&[1 << 32, (1 << 32) + was, 1 << 63, (1 << 60) + 2, u64::MAX, u64::MAX - 1]),
        _ => random.draw(),
    }
}

/// A count: at an end of its range, as many as the links from the event or those of them that were delivered, or next
/// to that.
fn draw_count(random: &mut Random, session: &Session, event: u64) -> u64 {
    match random.below(3) {
        0 => random.among(&[0, 1, 15, 16, 17]),
        1 => session.links_from(event).wrapping_add(random.among(&[u64::MAX, 0, 1])),
        _ => session.delivered_from(event).wrapping_add(random.among(&[u64::MAX, 0, 1])),
    }
}

/// Change so many words of a session's, and say which.
pub fn damage(random: &mut Random, session: &Session, words: &mut [u64], count: u64) -> Vec<usize> {
    let changed: Vec<usize> = (0..count).map(|_| draw_word(random, session, words)).collect();
    for word in &changed {
        words[*word] = draw_value(random, session, words, *word);
    }
    changed
}

/// The session after so many calls of a list of that edition.
pub fn reached(edition: Edition, seed: u64, calls: u64) -> Session {
    let mut list = random_list(seed, calls).in_edition(edition);
    for _ in 0..calls {
        list.next_call();
    }
    list.session
}
