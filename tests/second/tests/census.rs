//! What the generators bring up: enough accepted calls, every operation, every refusal, and the rarer turns.

use second::sheets::random_sheet_of;
use second::steer::{random_list, LATCH_CALLS};
use second::{
    parse_sheet, BlockState, Census, Edition, Ending, Event, EventState, EventType, Object, Operation, Session,
};

/// Half of the calls at least are accepted, every operation is, and these refusals come up; in edition 2 also 24.
fn check(edition: Edition, census: &Census, refusals: &[usize]) {
    let refusals = refusals.iter().copied();
    match edition {
        Edition::First => census.check(refusals),
        Edition::Second => census.check_codes(1..=13, refusals.chain([24])),
    }
    let accepted: u64 = census.accepted.iter().sum();
    assert!(2 * accepted >= census.calls, "{accepted} of {}", census.calls);
}

/// A sheet has no room for the 32,767 satisfactions before refusal 19; nor does it ever meet 1 or 2.
fn check_sheets(edition: Edition) {
    let mut census = Census::default();
    for (seed, index) in (1..=2).flat_map(|seed| (0..64).map(move |index| (seed, index))) {
        let sheet = random_sheet_of(edition, seed, index);
        assert!(sheet.len() <= 32_768);
        let (operations, ending) = parse_sheet(&sheet);
        let mut session = Session::fresh();
        for operation in &operations {
            census.count(operation, session.apply(operation));
        }
        if let Ending::Refused { refused, .. } = ending {
            census.calls += 1;
            census.refused[refused as usize] += 1;
        }
    }
    check(edition, &census, &[3, 4, 5, 6, 7, 8, 9, 10, 11, 12, 13, 14, 15, 16, 17, 18, 20, 21]);
}

#[test]
fn sheets() {
    check_sheets(Edition::First);
}

#[test]
fn sheets_of_edition_2() {
    check_sheets(Edition::Second);
}

/// A sheet of edition 2 begins with 2, but for the themes that damage its bytes; of the bad first numbers none is 1 or 2,
/// and 14 is the unknown code behind good records.
#[test]
fn first_numbers_and_last_codes() {
    let (mut firsts, mut codes) = ([0; 256], 0);
    // More of those with a bad record at the end, and with a bad first number.
    for index in (0..64).chain((64..960).filter(|index| matches!(index % 16, 9 | 11))) {
        let sheet = random_sheet_of(Edition::Second, 6, index);
        match index % 16 {
            // Flipped, or cut to nothing.
            4 | 7 | 14 | 15 => (),
            11 => {
                assert!(!matches!(sheet[..], [1 | 2, ..]));
                firsts[sheet[0] as usize] += 1;
            }
            theme => {
                assert_eq!(sheet[0], 2);
                codes += u64::from(theme == 9 && sheet.ends_with(&[14, 2, 1]));
                assert!(!sheet.ends_with(&[13, 2, 1]) || parse_sheet(&sheet).1 == Ending::Whole);
            }
        }
    }
    assert!(firsts[3] > 0 && firsts[0] > 0 && firsts[130] > 0 && codes > 0, "{codes}");
}

#[test]
fn lists_of_single_calls() {
    check_lists(Edition::First);
}

#[test]
fn lists_of_single_calls_of_edition_2() {
    check_lists(Edition::Second);
}

fn check_lists(edition: Edition) {
    let mut census = Census::default();
    let lengths = [(0, LATCH_CALLS + 2_000), (4, LATCH_CALLS + 2_000), (5, 3_000), (7, 6_000)];
    for (seed, calls) in lengths.into_iter().chain((20..40).map(|seed| (seed, 1_500))) {
        let mut list = random_list(seed, calls).in_edition(edition);
        for _ in 0..calls {
            let (operation, answer) = list.next_call();
            census.count(&operation, answer);
        }
    }
    check(edition, &census, &[6, 7, 8, 9, 10, 11, 12, 13, 14, 15, 16, 17, 18, 19, 20, 21]);
}

/// Turns of a session that show in no answer.
#[derive(Default, Debug)]
struct Turns {
    dropped: u64,
    lost_late: u64,
    doomed: u64,
    cut: u64,
    latches: u64,
    finish_by_other: u64,
    finish_by_destroy: u64,
    several: u64,
}

fn fired(session: &Session, kind: EventType) -> u64 {
    let fired = |event: &Event| event.kind == kind && event.state == EventState::Fired;
    session.objects.iter().filter(|object| matches!(object, Object::Event(event) if fired(event))).count() as u64
}

fn blocks(session: &Session, state: BlockState) -> u64 {
    session.objects.iter().filter(|object| matches!(object, Object::Block(block) if block.state == state)).count()
        as u64
}

impl Turns {
    fn count(&mut self, before: &Session, operation: &Operation, after: &Session) {
        let outputs = fired(after, EventType::Output) - fired(before, EventType::Output);
        let own = operation.code == 12 && {
            let output = before.task(operation.fields[0]).map_or(0, |task| task.output);
            after.event(output).is_some_and(|event| event.state == EventState::Fired)
        };
        let lost = blocks(after, BlockState::Destroyed) > blocks(before, BlockState::Destroyed);
        self.dropped += after.dropped - before.dropped;
        self.doomed += u64::from(blocks(after, BlockState::Doomed) > blocks(before, BlockState::Doomed));
        self.lost_late += u64::from(lost && operation.code != 8);
        self.cut += u64::from(operation.code == 8 && after.undelivered_links() < before.undelivered_links());
        self.latches += fired(after, EventType::Latch) - fired(before, EventType::Latch);
        self.finish_by_other += u64::from(operation.code == 12 && outputs > u64::from(own));
        self.finish_by_destroy += u64::from(operation.code == 8 && outputs > 0);
        self.several += u64::from(outputs > 1);
    }
}

#[test]
fn rarer_turns() {
    check_turns(Edition::First);
    check_turns(Edition::Second);
}

fn check_turns(edition: Edition) {
    let mut turns = Turns::default();
    for seed in 100..150 {
        let mut list = random_list(seed, 800).in_edition(edition);
        for _ in 0..800 {
            let before = list.session.clone();
            let (operation, answer) = list.next_call();
            if answer.refused == 0 {
                turns.count(&before, &operation, &list.session);
            }
        }
    }
    println!("{turns:?}");
    let Turns { dropped, lost_late, doomed, cut, latches, finish_by_other, finish_by_destroy, several } = turns;
    for count in [dropped, lost_late, doomed, cut, latches, finish_by_other, finish_by_destroy, several] {
        assert!(count > 0, "one of the turns never came up");
    }
}
