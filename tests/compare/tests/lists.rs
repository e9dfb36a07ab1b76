//! Random lists of single operations from a fresh session: every answer, and the whole memory after every call.

use compare::pair::{Pair, Through};
use compare::words::from_words;
use second::steer::{random_list, LATCH_CALLS};
use second::{Census, Edition, Session};

/// The calls that the gate asks for, of each edition.
const CALLS: u64 = 200_000;

/// What the lists bring up.
struct Lists {
    edition: Edition,
    census: Census,
    checked: u64,
    most: (u64, u64),
}

impl Lists {
    /// At least 200,000 calls of that edition.
    fn play_all(edition: Edition) -> Lists {
        let mut lists = Lists { edition, census: Census::default(), checked: 0, most: (0, 0) };
        // A latch driven to either end of its range; 512 objects; 2,048 links.
        lists.play(0, LATCH_CALLS + 2_000, 997);
        lists.play(4, LATCH_CALLS + 2_000, 997);
        lists.play(5, 4_000, 101);
        lists.play(7, 6_000, 211);
        // Short lists are mostly checked, longer ones less, as a check of a large session costs more.
        for seed in 1_000..1_400 {
            lists.play(seed, 60, 3);
        }
        for seed in 2_000..2_070 {
            lists.play(seed, 1_500, 61);
        }
        println!("{} of them through apply, most objects and links {:?}", lists.checked, lists.most);
        assert!(lists.census.calls >= CALLS);
        assert_eq!(lists.most, (512, 2_048));
        lists
    }

    /// Play the list of a seed; every so many calls one goes through `apply`, the others through `apply_sound`.
    fn play(&mut self, seed: u64, calls: u64, every: u64) {
        let mut list = random_list(seed, calls).in_edition(self.edition);
        let mut pair = Pair::fresh();
        for number in 1..=calls {
            let (operation, answer) = list.next_call();
            let through = if number % every == 0 { Through::Apply } else { Through::ApplySound };
            self.checked += u64::from(through == Through::Apply);
            let got = pair.call(&operation, through);
            assert_eq!(got, answer, "seed {seed}, call {number}: the second engine does not do the same again");
            self.census.count(&operation, got);
        }
        assert!(pair.memory.sound() && list.session.is_sound(), "seed {seed}");
        let read = from_words(pair.memory.words()).expect("the words of a session");
        assert!(same(&read, &list.session), "seed {seed}: words read back as another session");
        self.most.0 = self.most.0.max(pair.second.object_count());
        self.most.1 = self.most.1.max(pair.second.link_count());
    }
}

/// The same session; holds have no order.
fn same(one: &Session, other: &Session) -> bool {
    let parts = |session: &Session| (session.objects.clone(), session.links.clone(), session.dropped);
    let holds = one.holds.iter().all(|hold| other.holds.contains(hold));
    parts(one) == parts(other) && holds && one.holds.len() == other.holds.len()
}

#[test]
fn two_hundred_thousand_calls() {
    Lists::play_all(Edition::First).census.check(6..=21);
}

/// Operation 13 and refusal 24 too.
#[test]
fn as_many_of_edition_2() {
    Lists::play_all(Edition::Second).census.check_codes(1..=13, (6..=21).chain([24]));
}
