//! The mode rule on all sixteen combinations of document 01, at both its places, and on numbers that are no modes.

use compare::judge::Judge;
use compare::layout::{Field, SLOTS};
use compare::pair::{Pair, Through};
use compare::words::to_words;
use second::Operation;

/// "Holds by different tasks conflict in these pairs: RW with EW, EW with EW, CONST with RW, CONST with EW."
const PAIRS: [(u64, u64); 4] = [(2, 3), (3, 3), (4, 2), (4, 3)];

fn listed(one: u64, other: u64) -> bool {
    PAIRS.contains(&(one, other)) || PAIRS.contains(&(other, one))
}

/// Main holds nothing; tasks 4 and 5 are resolved, each with block 1 in its slot, in these modes.
fn two_tasks(one: u64, other: u64) -> Pair {
    let mut pair = Pair::fresh();
    let calls: [&[u64]; 8] = [
        &[10, 2],
        &[11, 2],
        &[7, 2, 1],
        &[1, 2, 1],
        &[2, 2, 3, 17, 0, 0],
        &[2, 2, 3, 17, 0, 0],
        &[5, 2, 1, 4, 0, one],
        &[5, 2, 1, 5, 0, other],
    ];
    for numbers in calls {
        assert_eq!(call(&mut pair, numbers), 0, "{numbers:?}");
    }
    pair
}

/// The refusal that both engines answer.
fn call(pair: &mut Pair, numbers: &[u64]) -> u32 {
    pair.call(&Operation::new(numbers[0], &numbers[1..]), Through::Apply).refused
}

/// Check 18: what is asked for against what is held.
#[test]
fn sixteen_grants() {
    for (held, asked) in (1..=4).flat_map(|held| (1..=4).map(move |asked| (held, asked))) {
        let mut pair = two_tasks(held, asked);
        assert_eq!(call(&mut pair, &[10, 4]), 0);
        let wanted = if listed(held, asked) { 18 } else { 0 };
        assert_eq!(call(&mut pair, &[10, 5]), wanted, "held {held}, asked {asked}");
    }
}

/// Check 2: what stands together, in the words of a session with two holds. Numbers that are no modes are refused whatever
/// stands beside them.
#[test]
fn any_two_numbers_held() {
    let mut judge = Judge::new(4);
    let mut pair = two_tasks(1, 1);
    assert_eq!([call(&mut pair, &[10, 4]), call(&mut pair, &[10, 5])], [0, 0]);
    let mut words = to_words(&pair.second);
    let numbers: Vec<u64> = (0..=9).chain([16, 1 << 32, (1 << 32) + 1, (1 << 63) + 3, u64::MAX]).collect();
    for (one, other) in numbers.iter().flat_map(|one| numbers.iter().map(move |other| (*one, *other))) {
        words[Field::SlotMode.at(4 * SLOTS)] = one;
        words[Field::SlotMode.at(5 * SLOTS)] = other;
        let sound = judge.found.sound;
        judge.judge(&words);
        let modes = (1..=4).contains(&one) && (1..=4).contains(&other);
        assert_eq!(judge.found.sound > sound, modes && !listed(one, other), "{one} beside {other}");
    }
    assert_eq!(judge.found.sound, 9);
}
