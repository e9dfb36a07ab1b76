//! Whole sheets whose output document 01 gives, and the cases of E4 and E5.

use second::run_sheet;

/// "Sheet bytes: 1 | 10 2 | 11 2 | .. Output, whole".
#[test]
fn the_listing() {
    let sheet = [
        1, 10, 2, 11, 2, 1, 2, 1, 2, 2, 3, 17, 0, 1, 3, 2, 3, 5, 2, 6, 4, 0, 3, 6, 2, 6, 1, 0, 9, 1, 10, 4, 7, 2, 1,
        10, 4, 12, 2, 0,
    ];
    let output = b"1 0 0\n2 0 0\n3 0 3\n4 0 4\n5 0 6\n6 0 1\n7 0 0\n8 0 0\n9 18 0\n10 0 0\n11 0 0\n12 0 0\n1 0 0\n";
    assert_eq!(run_sheet(&sheet), output);
    // It uses no operation that edition 2 has alone.
    let later = [&[2], &sheet[1..]].concat();
    assert_eq!(run_sheet(&later), output);
}

/// The cases named E4, worked out by hand.
#[test]
fn the_cases_of_e4() {
    let sheet = [
        2, 10, 2, 11, 2, 13, 2, 1, 1, 2, 1, 2, 2, 4, 17, 0, 0, 5, 2, 3, 5, 0, 1, 5, 2, 3, 3, 0, 1, 6, 2, 3, 1, 0, 6, 2,
        3, 0, 0, 9, 1, 6, 2, 3, 0, 0, 5, 2, 3, 3, 0, 1, 8, 2, 3,
    ];
    let output =
        b"1 0 0\n2 0 0\n3 0 3\n4 0 4\n5 0 5\n6 0 1\n7 24 0\n8 0 0\n9 14 0\n10 0 0\n11 11 0\n12 11 0\n13 11 0\n2 0 0\n";
    assert_eq!(run_sheet(&sheet), output);
    assert_eq!(run_sheet(&[1, 13, 2, 1]), b"1 6 0\n1 0 0\n");
}

/// The case named E5: task 4 ends with task 5 live, which it made; 5 then climbs to 4 and to main.
#[test]
fn the_case_of_e5() {
    let sheet = [
        1, 10, 2, 11, 2, 1, 2, 0, 2, 2, 3, 17, 0, 0, 10, 4, 11, 4, 2, 4, 3, 17, 0, 0, 10, 5, 11, 5, 12, 4, 0, 12, 5, 0,
        12, 2, 0,
    ];
    let output = b"1 0 0\n2 0 0\n3 0 3\n4 0 4\n5 0 0\n6 0 0\n7 0 5\n8 0 0\n9 0 0\n10 0 0\n11 0 2\n12 0 0\n0 0 0\n";
    assert_eq!(run_sheet(&sheet), output);
}

/// P7: "empty sheet: `0 3 0`, then `1 0 0`".
#[test]
fn the_empty_sheet() {
    assert_eq!(run_sheet(&[]), b"0 3 0\n1 0 0\n");
}

#[test]
fn a_first_number_alone() {
    assert_eq!(run_sheet(&[1]), b"1 0 0\n");
    assert_eq!(run_sheet(&[2]), b"1 0 0\n");
    assert_eq!(run_sheet(&[0]), b"0 5 0\n1 0 0\n");
    assert_eq!(run_sheet(&[3]), b"0 5 0\n1 0 0\n");
    assert_eq!(run_sheet(&[130, 1]), b"0 5 0\n1 0 0\n");
    assert_eq!(run_sheet(&[129, 0]), b"0 4 0\n1 0 0\n");
    assert_eq!(run_sheet(&[130, 0]), b"0 4 0\n1 0 0\n");
    assert_eq!(run_sheet(&[129]), b"0 3 0\n1 0 0\n");
}

/// "Refusals 2 to 6 end the sheet with that line, numbered as the record begun".
#[test]
fn a_bad_record_ends_the_sheet() {
    assert_eq!(run_sheet(&[1, 10, 2, 13, 10, 2]), b"1 0 0\n2 6 0\n1 0 0\n");
    assert_eq!(run_sheet(&[2, 10, 2, 13, 2, 1, 11, 2]), b"1 0 0\n2 8 0\n3 0 0\n1 0 0\n");
    assert_eq!(run_sheet(&[2, 10, 2, 14, 10, 2]), b"1 0 0\n2 6 0\n1 0 0\n");
    assert_eq!(run_sheet(&[1, 10, 2, 9, 129, 0, 10, 2]), b"1 0 0\n2 4 0\n1 0 0\n");
    assert_eq!(run_sheet(&[1, 10, 2, 2, 2]), b"1 0 0\n2 3 0\n1 0 0\n");
    assert_eq!(run_sheet(&[1, 10, 1, 10, 2]), b"1 10 0\n2 0 0\n1 0 0\n");
}

/// "whose first 32,768 bytes at most are the sheet".
#[test]
fn bytes_past_the_sheet_are_not_read() {
    let mut bytes = vec![1];
    while bytes.len() < 32_768 {
        bytes.extend([9, 1]);
    }
    // 1 + 2n bytes never make 32,768, so the last record is cut by one byte.
    let output = String::from_utf8(run_sheet(&bytes)).unwrap();
    assert!(output.ends_with("16383 9 0\n16384 3 0\n1 0 0\n"));
    assert_eq!(output.lines().count(), 16_385);
}
