//! Sessions damaged word by word: the library's check 2 against the second engine's, and the calls after it.

use compare::damage::{damage, reached};
use compare::judge::Judge;
use compare::layout::{Field, WORDS};
use compare::words::to_words;
use second::random::Random;
use second::{Edition, EventType, Object, Session};

/// Damage a session so many times, each time from whole: one word, sometimes two.
fn judge_damaged(judge: &mut Judge, session: &Session, seed: u64, times: u64) {
    let whole = to_words(session);
    let mut random = Random::part(seed, times);
    let mut words = whole.clone();
    judge.judge(&words);
    for _ in 0..times {
        let count = random.among(&[1, 1, 1, 2]);
        let changed = damage(&mut random, session, &mut words, count);
        judge.judge(&words);
        changed.iter().for_each(|word| words[*word] = whole[*word]);
    }
}

/// Sessions of lists of that edition.
fn judge_reached(edition: Edition) {
    let mut judge = Judge::new(1).in_edition(edition);
    for seed in 0..150 {
        judge_damaged(&mut judge, &reached(edition, seed, 40 + 2 * seed), seed, 90);
    }
    // Full of objects, and full of links.
    judge_damaged(&mut judge, &reached(edition, 3_005, 1_500), 3_005, 150);
    judge_damaged(&mut judge, &reached(edition, 3_007, 5_000), 3_007, 150);
    println!("{:?}", judge.found);
    assert!(judge.found.unsound > 10_000 && judge.found.sound > 1_000);
}

#[test]
fn damaged_word_by_word() {
    judge_reached(Edition::First);
}

#[test]
fn damaged_in_edition_2() {
    judge_reached(Edition::Second);
}

/// The counted events that there are, each with its count.
fn counted_events(session: &Session) -> Vec<(u64, u64)> {
    let counted = |(handle, object): (u64, &Object)| match object {
        Object::Event(event) if event.kind == EventType::Counted => Some((handle, event.count)),
        _ => None,
    };
    (1..).zip(&session.objects).filter_map(counted).collect()
}

/// Words of a counted event, and numbers for each: its count, which is held against the links from it and those
/// delivered, its type and its state.
fn words_of(session: &Session, event: u64) -> Vec<(usize, u64)> {
    let (made, served, place) = (session.links_from(event), session.delivered_from(event), event as usize);
    let near = [made, made + 1, made.wrapping_sub(1), served, served + 1, served.wrapping_sub(1)];
    let counts = near.into_iter().chain([0, 1, 15, 16, 17, 1 << 32, u64::MAX]);
    let counts = counts.map(|count| (Field::EventCount.at(place), count));
    let types = (0..8).map(|number| (Field::EventType.at(place), number));
    counts.chain(types).chain((0..6).map(|number| (Field::EventState.at(place), number))).collect()
}

/// Each counted event changed by itself; and some link more or less from it.
#[test]
fn counted_events_and_their_links() {
    let mut judge = Judge::new(6).in_edition(Edition::Second);
    let (mut events, mut served) = (0, 0);
    for seed in 0..60 {
        let session = reached(Edition::Second, seed, 100 + 5 * seed);
        let counted = counted_events(&session);
        let (whole, mut random) = (to_words(&session), Random::part(seed, 6));
        let mut words = whole.clone();
        events += counted.len();
        served += counted.iter().filter(|(handle, count)| session.delivered_from(*handle) == *count).count();
        for (handle, _) in &counted {
            let link = 1 + random.below(session.link_count().max(1)) as usize;
            let moved = [*handle, random.among(&counted).0].map(|source| (Field::LinkSource.at(link), source));
            let turned = (0..5).map(|state| (Field::LinkState.at(link), state));
            for (word, value) in words_of(&session, *handle).into_iter().chain(moved).chain(turned) {
                words[word] = value;
                judge.judge(&words);
                words[word] = whole[word];
            }
        }
    }
    println!("{events} counted events, {served} of them with their count delivered: {:?}", judge.found);
    assert!(events > 500 && served > 50 && judge.found.sound > 1_000 && judge.found.unsound > 5_000);
}

/// The first places of every field of a fresh session, with all small values and some huge ones.
#[test]
fn each_word_of_a_fresh_session() {
    let mut judge = Judge::new(2);
    let whole = to_words(&Session::fresh());
    let mut words = whole.clone();
    for field in Field::ALL {
        for place in (0..field.row().places).filter(|place| *place < 4 || (32..34).contains(place)) {
            for value in (0..8).chain([16, 17, 513, 32_767, 1 << 32, u64::MAX]) {
                words[field.at(place)] = value;
                judge.judge(&words);
                words[field.at(place)] = whole[field.at(place)];
            }
        }
    }
    println!("{:?}", judge.found);
}

/// Words all over the memory, one in thirteen and those at the ends of rows, each with one bit.
#[test]
fn words_all_over() {
    let mut judge = Judge::new(3);
    let mut words = to_words(&Session::fresh());
    let ends: Vec<usize> = Field::ALL.iter().map(|field| field.row().first).collect();
    let at_an_end = |word: &usize| ends.iter().any(|end| word + 1 == *end || word == end);
    for word in (0..WORDS).filter(|word| word % 13 == 3 || at_an_end(word) || word + 1 == WORDS) {
        words[word] ^= 1 << (word % 64);
        judge.judge(&words);
        words[word] ^= 1 << (word % 64);
    }
    println!("{:?}", judge.found);
    assert!(judge.found.unsound > 3_000);
}
