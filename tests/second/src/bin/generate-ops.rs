use std::io::{self, BufWriter, Write};
use std::{env, process};

use second::steer::random_list;
use second::Edition;

/// `generate-ops SEED CALLS [EDITION]`: one list of so many calls from a fresh session, a line each: code, fields, `->`,
/// refusal, made. In edition 1, if nothing is said, operation 13 is left out.
fn main() -> io::Result<()> {
    let given: Vec<u64> = env::args().skip(1).filter_map(|word| word.parse().ok()).collect();
    let (&[seed, calls, ..], Some(edition)) = (&given[..], edition(&given)) else {
        eprintln!("usage: generate-ops SEED CALLS [EDITION]");
        process::exit(2);
    };
    let mut out = BufWriter::new(io::stdout().lock());
    let mut list = random_list(seed, calls).in_edition(edition);
    for _ in 0..calls {
        let (operation, answer) = list.next_call();
        write!(out, "{}", operation.code)?;
        for field in operation.known_fields() {
            write!(out, " {field}")?;
        }
        writeln!(out, " -> {} {}", answer.refused, answer.made)?;
    }
    out.flush()
}

fn edition(given: &[u64]) -> Option<Edition> {
    match given {
        [_, _] => Some(Edition::First),
        [_, _, number] => Edition::try_from(*number).ok(),
        _ => None,
    }
}
