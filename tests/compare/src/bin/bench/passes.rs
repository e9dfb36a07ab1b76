//! What one pass over a session's memory costs, to hold one `apply` against.

use std::hint::black_box;
use std::time::{Duration, Instant};

use crate::median;

const ROUNDS: usize = 501;

/// Adds all words up, which the compiler does several at a time; and looks at each for a number that is not there.
pub fn print(words: &[u64], apply: f64) {
    let adds = timed(|| black_box(words).iter().fold(0, |sum: u64, word| sum.wrapping_add(*word)));
    let looks = timed(|| black_box(words).iter().position(|word| *word == u64::MAX));
    for (name, time) in [("adding them up", adds), ("looking at each", looks)] {
        let nanos = time.as_nanos() as f64;
        println!("one pass over the {} words, {name}: {nanos:.0} ns; one apply: {:.1} of it", words.len(), apply / nanos);
    }
}

fn timed<T>(mut pass: impl FnMut() -> T) -> Duration {
    let once = |_| {
        let began = Instant::now();
        black_box(pass());
        began.elapsed()
    };
    median((0..ROUNDS).map(once).collect())
}
