//! The class report: requests E1 and E2 of document 02.

use second::class::{count_sheet, report, superseding, Tally};
use second::number::MAX_NUMBER;
use second::sheets::random_sheet_of;
use second::{parse_sheet, run_sheet, Edition};

fn reported(file: &[u8]) -> String {
    let mut out = vec![];
    report(file, &mut out);
    String::from_utf8(out).unwrap()
}

/// The lines behind `class 1`, parted by `/`.
#[track_caller]
fn check(file: &[u8], lines: &str) {
    assert_eq!(reported(file), format!("class 1\n{}\n", lines.replace(" / ", "\n")), "{file:?}");
}

/// An entry of this learner and turn.
fn turned_in(learner: u64, turn: u64, sheet: &[u8]) -> Vec<u8> {
    let mut bytes = vec![];
    for number in [learner, turn, sheet.len() as u64] {
        second::number::write_number(number, &mut bytes);
    }
    bytes.extend(sheet);
    bytes
}

/// An entry of learner 5, turn 1.
fn entry(sheet: &[u8]) -> Vec<u8> {
    turned_in(5, 1, sheet)
}

/// A file of these entries, one for each learner from 1 up, of turn 1.
fn class_of(sheets: &[&[u8]]) -> Vec<u8> {
    let entries = sheets.iter().zip(1..).flat_map(|(sheet, learner)| turned_in(learner, 1, sheet));
    [sheets.len() as u8].into_iter().chain(entries).collect()
}

/// The two sheets of E1 are by one learner, so by E2 the one of the lower turn is not listed.
#[test]
fn the_settled_cases() {
    check(&[], "stop 3");
    check(&[1, 7, 0, 0], "7 0 1 1 0 0 / 1 1 0 0");
    check(&[2, 5, 1, 5, 1, 10, 2, 11, 2, 5, 0, 3, 1, 10, 3], "5 1 2 0 1 0 / 2 0 1 0");
    check(&[1, 128, 0], "stop 4");
    check(&[2, 5, 1, 1, 1], "5 1 0 0 0 0 / stop 3");
    check(&[4, 5, 1, 1, 1, 5, 3, 3, 1, 10, 2, 5, 2, 1, 1, 6, 0, 0], "5 3 1 0 0 0 / 6 0 1 1 0 0 / 2 1 0 0");
    check(&[2, 5, 3, 3, 1, 10, 2, 4, 9, 2, 1], "5 3 1 0 0 0 / stop 22");
}

/// "3 and 4, met as each is read".
#[test]
fn numbers_are_met_one_by_one() {
    for before in [&[][..], &[1], &[1, 5], &[1, 5, 1]] {
        for (number, stop) in [
            (&[][..], "stop 3"),
            (&[172], "stop 3"),
            (&[128; 200], "stop 3"),
            (&[255, 255, 255, 255], "stop 3"),
            (&[129, 0], "stop 4"),
            (&[128, 128, 128, 128, 128, 128, 128, 0], "stop 4"),
            (&[128, 128, 128, 128, 16], "stop 4"),
            (&[255, 255, 255, 255, 255, 255, 255, 255, 255, 255, 255, 1], "stop 4"),
        ] {
            check(&[before, number].concat(), stop);
        }
    }
}

#[test]
fn numbers_of_every_width() {
    let most = [255, 255, 255, 255, 15];
    check(&[&[1][..], &most, &[172, 2, 1, 1]].concat(), "4294967295 300 0 0 0 0 / 0 0 0 0");
    check(&[&most[..], &entry(&[1, 10, 2, 11, 2])].concat(), "5 1 2 0 1 0 / stop 3");
}

/// "22, a length above 32,768 or past the end, checked before the sheet's own numbers".
#[test]
fn lengths() {
    let sheet = [&[1, 10, 2, 11, 2][..], &[1; 32_763]].concat();
    check(&[&[1][..], &entry(&sheet)].concat(), "5 1 10923 10921 1 0 / 10923 10921 1 0");
    check(&[&[1][..], &entry(&[1; 32_769])].concat(), "stop 22");
    check(&[1, 5, 1, 255, 255, 255, 255, 15], "stop 22");
    check(&[1, 5, 1, 1], "stop 22");
    check(&[1, 5, 1, 3, 129, 0], "stop 22");
    check(&[2, 5, 1, 1, 1, 6, 1, 2, 2], "5 1 0 0 0 0 / stop 22");
}

/// "bytes after the last sheet are not read".
#[test]
fn bytes_after_the_last_sheet() {
    check(&[0], "0 0 0 0");
    check(&[0, 128, 0], "0 0 0 0");
    check(&[1, 5, 1, 0, 128], "5 1 1 1 0 0 / 1 1 0 0");
}

/// Main runs, then a delivery is dropped: 8 records, none refused, one start, one dropped.
const DROPPED: [u8; 29] = [1, 10, 2, 11, 2, 3, 2, 1, 3, 2, 1, 5, 2, 3, 4, 0, 1, 6, 2, 4, 0, 0, 6, 2, 3, 0, 0, 9, 1];

/// Lines 0, sheets that a bad record ends, refused starts, a dropped delivery.
#[test]
fn counts_and_sums() {
    let lines = "1 1 1 1 0 0 / 2 1 1 1 0 0 / 3 1 1 1 0 0 / 4 1 0 0 0 0 / 3 3 0 0";
    check(&class_of(&[&[129], &[129, 0], &[3, 10, 2], &[1]]), lines);
    let lines = "1 1 8 0 1 1 / 2 1 4 2 1 0 / 3 1 2 1 0 0 / 14 3 2 1";
    check(&class_of(&[&DROPPED, &[1, 11, 2, 10, 2, 11, 2, 13, 10, 2], &[1, 10, 2, 11]]), lines);
}

/// Sheets of both editions in one class: in the second, counted event 3 goes with a dropped delivery to itself.
#[test]
fn sheets_of_both_editions() {
    let second = [2, 10, 2, 11, 2, 13, 2, 1, 5, 2, 3, 3, 0, 1, 6, 2, 3, 0, 0, 9, 1, 6, 2, 3, 0, 0];
    let first = [&[1], &second[1..]].concat();
    let lines = "1 1 3 1 1 0 / 2 1 7 1 1 1 / 3 1 1 1 0 0 / 4 1 0 0 0 0 / 11 3 2 1";
    check(&class_of(&[&first, &second, &[3], &[2]]), lines);
}

/// A file of one learner, each sheet with its turn; the report has one line, of the sheet that counts.
#[track_caller]
fn check_turns(turns: &[u64], counting: usize) {
    for learner in [0, 5, MAX_NUMBER] {
        let sheets: Vec<Vec<u8>> =
            (0..turns.len()).map(|refused| [&[1][..], &[9, 1].repeat(refused)].concat()).collect();
        let entries = turns.iter().zip(&sheets).flat_map(|(turn, sheet)| turned_in(learner, *turn, sheet));
        let file: Vec<u8> = [turns.len() as u8].into_iter().chain(entries).collect();
        check(&file, &format!("{learner} {} {counting} {counting} 0 0 / {counting} {counting} 0 0", turns[counting]));
    }
}

/// "For one learner the sheet with the higher turn counts; of equal turns the later in the file."
#[test]
fn turns_of_one_learner() {
    check_turns(&[0], 0);
    check_turns(&[0, 0], 1);
    check_turns(&[0, 1], 1);
    check_turns(&[1, 0], 0);
    check_turns(&[3, 3, 3, 3], 3);
    check_turns(&[1, 2, 3], 2);
    check_turns(&[3, 2, 1], 0);
    check_turns(&[2, 3, 1], 1);
    check_turns(&[3, 1, 3], 2);
    check_turns(&[1, 3, 3, 2, 0], 2);
    check_turns(&[128, 2, 127], 0);
    check_turns(&[129, 256, 255], 1);
    check_turns(&[9, 10], 1);
    check_turns(&[2_147_483_647, 2_147_483_648], 1);
    check_turns(&[MAX_NUMBER, 0, MAX_NUMBER - 1], 0);
}

/// "lists and sums superseding sheets only": each learner's turns are compared among themselves.
#[test]
fn turns_of_several_learners() {
    let entries = [
        turned_in(0, 9, &[1, 10, 2]),
        turned_in(0, 2, &DROPPED),
        turned_in(5, 1, &[]),
        turned_in(5, 2, &DROPPED),
        turned_in(5, 2, &[1, 11, 2]),
        turned_in(6, 0, &DROPPED),
    ];
    let lines = "0 9 1 0 0 0 / 5 2 1 1 0 0 / 6 0 8 0 1 1 / 10 1 1 1";
    check(&[vec![6], entries.concat()].concat(), lines);
    check(&[vec![4], entries.concat()].concat(), "0 9 1 0 0 0 / 5 2 8 0 1 1 / 9 0 1 1");
    check(&[vec![7], entries.concat()].concat(), &lines.replace("10 1 1 1", "stop 3"));
}

/// "23, a learner number lower than the one before it in the file, checked after 22".
#[test]
fn learners_that_fall() {
    check(&[2, 5, 1, 1, 1, 4, 1, 1, 1], "5 1 0 0 0 0 / stop 23");
    check(&[2, 1, 0, 0, 0, 0, 0], "1 0 1 1 0 0 / stop 23");
    check(&[3, 5, 1, 1, 1, 6, 1, 0, 5, 2, 1, 1], "5 1 0 0 0 0 / 6 1 1 1 0 0 / stop 23");
    check(&[4, 5, 1, 1, 1, 5, 2, 0, 4, 9, 1, 1, 128, 0], "5 2 1 1 0 0 / stop 23");
    // Numbers and not bytes: 129, 256, then 255.
    check(&[3, 129, 1, 0, 0, 128, 2, 0, 0, 255, 1, 0, 0], "129 0 1 1 0 0 / 256 0 1 1 0 0 / stop 23");
}

/// What is met before 23 in an entry whose learner is lower.
#[test]
fn stops_before_23() {
    for (entry, stop) in [
        (&[4][..], "stop 3"),
        (&[4, 129, 0], "stop 4"),
        (&[4, 1], "stop 3"),
        (&[4, 1, 129, 0, 1], "stop 4"),
        (&[4, 1, 1], "stop 22"),
        (&[4, 1, 255, 255, 255, 255, 15, 1], "stop 22"),
        (&[4, 1, 1, 2], "stop 23"),
    ] {
        check(&[&[2, 5, 1, 1, 1], entry].concat(), &format!("5 1 0 0 0 0 / {stop}"));
    }
}

/// "A stop first prints the line of the learner still pending, and no sums": whoever's entry it is that stops.
#[test]
fn stops_with_a_learner_pending() {
    for learner in [4, 5, 6] {
        for (entry, stop) in
            [(&[learner, 9][..], "stop 3"), (&[learner, 128, 0], "stop 4"), (&[learner, 9, 4, 1, 10, 2], "stop 22")]
        {
            check(&[&[2, 5, 1, 1, 1], entry].concat(), &format!("5 1 0 0 0 0 / {stop}"));
            let twice = [&[3, 5, 1, 0, 5, 1, 1, 1], entry].concat();
            check(&twice, &format!("5 1 0 0 0 0 / {stop}"));
        }
    }
}

/// "as the lender's own bytes": sheets of the same bytes are told apart by where they are.
#[test]
fn the_superseding_sheet() {
    let (first, second) = (vec![1, 10, 2], vec![1, 10, 2]);
    for (first_turn, second_turn, later) in [
        (0, 0, true),
        (0, 1, true),
        (1, 0, false),
        (128, 2, false),
        (129, 256, true),
        (MAX_NUMBER, MAX_NUMBER, true),
        (MAX_NUMBER, 0, false),
        (u64::MAX, 0, false),
        (0, u64::MAX, true),
    ] {
        let sheet = superseding(&first, first_turn, &second, second_turn);
        assert!(std::ptr::eq(sheet, if later { &second[..] } else { &first[..] }), "{first_turn} {second_turn}");
    }
}

#[test]
fn a_report_goes_behind_what_is_there() {
    let mut out = b"before\n".to_vec();
    report(&[0], &mut out);
    assert_eq!(out, b"before\nclass 1\n0 0 0 0\n");
}

/// The counts read off the lines that the sheet program prints.
fn count_lines(sheet: &[u8]) -> Tally {
    let text = String::from_utf8(run_sheet(sheet)).unwrap();
    let lines: Vec<Vec<u64>> =
        text.lines().map(|line| line.split(' ').map(|word| word.parse().unwrap()).collect()).collect();
    let (last, answers) = lines.split_last().unwrap();
    let (operations, _) = parse_sheet(sheet);
    let started = |(operation, line): &(&second::Operation, &Vec<u64>)| operation.code == 11 && line[1] == 0;
    Tally {
        records: answers.len() as u64,
        refused: answers.iter().filter(|line| line[1] != 0).count() as u64,
        starts: operations.iter().zip(answers).filter(started).count() as u64,
        dropped: last[2],
    }
}

/// "each run from fresh as the sheet program runs it".
#[test]
fn counts_are_those_of_the_printed_lines() {
    let mut most = Tally::default();
    for index in 0..96 {
        let edition = if index < 48 { Edition::First } else { Edition::Second };
        let sheet = random_sheet_of(edition, 31, index);
        let tally = count_sheet(&sheet);
        assert_eq!(tally, count_lines(&sheet), "sheet {index}");
        most.starts = most.starts.max(tally.starts);
        most.dropped = most.dropped.max(tally.dropped);
    }
    assert!(most.starts > 10 && most.dropped > 10, "{most:?}");
}
