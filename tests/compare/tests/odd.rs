//! Operations with codes and fields of any size, on sessions that have one of everything.

use compare::pair::{Pair, Through};
use second::operation::field_count;
use second::{Answer, Operation, Session};

fn operation(numbers: &[u64]) -> Operation {
    Operation::new(numbers[0], &numbers[1..])
}

/// Block 1, main 2, template 3, task 4 with output 5 waiting for sticky 6 by link 1, latch 7, block 8 held by main,
/// task 9 granted with block 8, sticky 10 fired with link 2 delivered to once 11 and link 3 ready to latch 7, task 12
/// resolved, counted event 13 fired with all its links made, link 4 delivered and link 5 ready to latch 7, counted event
/// 14 open.
fn rich() -> Session {
    let mut session = Session::fresh();
    let calls: [&[u64]; 25] = [
        &[10, 2],
        &[11, 2],
        &[1, 2, 17],
        &[2, 2, 3, 2, 0, 1],
        &[3, 2, 3],
        &[5, 2, 6, 4, 0, 3],
        &[3, 2, 4],
        &[4, 2, 1],
        &[2, 2, 3, 1, 0, 0],
        &[5, 2, 8, 9, 0, 2],
        &[10, 9],
        &[3, 2, 3],
        &[3, 2, 1],
        &[6, 2, 10, 1, 0],
        &[5, 2, 10, 11, 0, 1],
        &[5, 2, 10, 7, 1, 1],
        &[9, 2],
        &[2, 2, 3, 0, 1, 0],
        &[6, 2, 7, 0, 1],
        &[13, 2, 2],
        &[13, 2, 16],
        &[6, 2, 13, 1, 0],
        &[5, 2, 13, 7, 1, 1],
        &[5, 2, 13, 7, 1, 1],
        &[9, 4],
    ];
    for numbers in calls {
        assert_eq!(session.apply(&operation(numbers)).refused, 0, "{numbers:?}");
    }
    session
}

/// Accepted calls of each operation on the rich session.
const ACCEPTED: [&[u64]; 19] = [
    &[1, 2, 4],
    &[2, 2, 3, 1, 0, 1],
    &[3, 2, 4],
    &[4, 2, 1],
    &[5, 2, 1, 4, 1, 1],
    &[5, 2, 10, 4, 1, 4],
    &[6, 2, 7, 0, 0],
    &[6, 2, 6, 8, 0],
    &[7, 2, 8],
    &[8, 2, 4],
    &[9, 3],
    &[10, 12],
    &[11, 9],
    &[12, 2, 8],
    &[13, 2, 16],
    &[5, 2, 14, 4, 1, 4],
    &[6, 2, 14, 8, 0],
    &[9, 5],
    &[8, 2, 13],
];

/// Numbers at the ends of things; those near 2^64 and 2^60 come back into range where 16 times a handle is added to
/// them, or where they are cut to fewer bits.
fn odd_numbers() -> Vec<u64> {
    let near = (0..=20).chain([31, 32, 33, 64, 255, 256, 511, 512, 513, 514, 2_047, 2_048, 2_049, 8_207, 8_208, 8_209]);
    let ends = [15, 16, 31, 32, 33, 59, 60, 61, 62, 63].into_iter().map(|bit| 1u64 << bit);
    let around = ends.flat_map(|end| [end - 1, end, end + 1, end + 2, end + 7, end + 10]);
    let wrapped = (0..16).flat_map(|handle| (0..2).map(move |slot| 0u64.wrapping_sub(16 * handle).wrapping_add(slot)));
    let top = (0..12).map(|less| u64::MAX - less);
    near.chain(around).chain(wrapped).chain(top).chain([40_518, 41_030, 41_031, 65_534, 65_535, 65_536]).collect()
}

/// A call on a pair made anew from the session, through both functions of the library.
fn try_both(session: &Session, operation: &Operation) -> Answer {
    let mut pair = Pair::of(session.clone());
    assert!(pair.memory.sound());
    let answer = pair.call(operation, Through::ApplySound);
    let mut pair = Pair::of(session.clone());
    assert_eq!(pair.call(operation, Through::Apply), answer);
    answer
}

#[test]
fn unknown_codes() {
    let codes = [0, 14, 15, 16, 255, 256, (1 << 32) + 1, (1 << 32) + 13, (1 << 63) + 2, u64::MAX - 1, u64::MAX];
    for session in [Session::fresh(), rich()] {
        for (code, field) in codes.into_iter().flat_map(|code| [0, 2, 512, u64::MAX].map(|field| (code, field))) {
            let answer = try_both(&session, &Operation { code, fields: [field; 5] });
            assert_eq!(answer, Answer { refused: 6, made: 0 }, "{code}");
        }
    }
}

/// Each field of each operation in turn.
#[test]
fn fields_of_any_size() {
    let session = rich();
    let (mut calls, mut refused) = (0, [0; 25]);
    for numbers in ACCEPTED {
        let whole = operation(numbers);
        assert_eq!(try_both(&session, &whole).refused, 0, "{whole:?}");
        for (field, odd) in
            (0..numbers.len() - 1).flat_map(|field| odd_numbers().into_iter().map(move |odd| (field, odd)))
        {
            let mut spoilt = whole;
            spoilt.fields[field] = odd;
            refused[try_both(&session, &spoilt).refused as usize] += 1;
            calls += 2;
        }
    }
    println!("calls {calls} by refusal {refused:?}");
    assert!([7, 8, 9, 10, 11, 12, 13, 14, 16, 24].iter().all(|number| refused[*number] > 0));
}

/// "The fields past those that its code has are no part of it."
#[test]
fn fields_past_the_codes_own() {
    let session = rich();
    for numbers in ACCEPTED {
        let whole = operation(numbers);
        let wanted = try_both(&session, &whole);
        for odd in [1, 2, u64::MAX] {
            let mut padded = whole;
            padded.fields[field_count(whole.code).unwrap()..].fill(odd);
            assert_eq!(try_both(&session, &padded), wanted, "{padded:?}");
        }
    }
}

/// All fields huge at once, for every code.
#[test]
fn all_fields_huge() {
    for session in [Session::fresh(), rich()] {
        for (code, field) in (0..=14).flat_map(|code| [1 << 32, 1 << 63, u64::MAX].map(|field| (code, field))) {
            let answer = try_both(&session, &Operation { code, fields: [field; 5] });
            assert!(answer.refused >= 6, "{code}");
        }
    }
}
