//! Numbers and records as bytes.

use second::number::{number_bytes, number_value, write_number};
use second::random::Random;
use second::{parse_sheet, read_record, write_record, Edition, Ending, Operation};

fn written(value: u64) -> Vec<u8> {
    let mut bytes = vec![];
    write_number(value, &mut bytes);
    bytes
}

/// P6: "bytes 128 0: refusal 4; 128 1 is 128".
#[test]
fn the_edges_of_numbers() {
    assert_eq!(number_value(&[128, 0]), None);
    assert_eq!(number_value(&[128, 1]), Some(128));
    assert_eq!(number_value(&[0]), Some(0));
    assert_eq!(number_value(&[255, 255, 255, 255, 15]), Some(4_294_967_295));
    assert_eq!(number_value(&[128, 128, 128, 128, 16]), None);
    assert_eq!(number_value(&[129, 128, 128, 128, 128, 128, 128, 128, 128, 128, 1]), None);
    assert_eq!(written(128), [128, 1]);
    assert_eq!(written(4_294_967_295), [255, 255, 255, 255, 15]);
}

#[test]
fn written_numbers_read_back() {
    let edges = [0, 1, 127, 128, 300, 16_383, 16_384, 2_097_151, 2_097_152, 268_435_455, 268_435_456, 4_294_967_295];
    for value in edges {
        let bytes = written(value);
        assert_eq!(number_bytes(&bytes), Some(&bytes[..]));
        assert_eq!(number_value(&bytes), Some(value));
    }
}

/// Readings 1 and 2.
#[test]
fn the_order_of_the_checks_of_a_record() {
    for edition in [Edition::First, Edition::Second] {
        // The second field is too long a form, the last is cut short.
        assert_eq!(read_record(&[5, 2, 128, 0, 3, 0], edition), Err(3));
        assert_eq!(read_record(&[5, 2, 128, 0, 3, 0, 1], edition), Err(4));
        assert_eq!(read_record(&[9, 128, 128, 128, 128, 128, 128], edition), Err(3));
        assert_eq!(read_record(&[9, 128, 128, 128, 128, 128, 128, 1], edition), Err(4));
        // The code comes first, whatever follows.
        assert_eq!(read_record(&[14], edition), Err(6));
        assert_eq!(read_record(&[0, 128], edition), Err(6));
        assert_eq!(read_record(&[137, 0], edition), Err(4));
        assert_eq!(read_record(&[141, 0], edition), Err(4));
        assert_eq!(read_record(&[128], edition), Err(3));
        assert_eq!(read_record(&[9, 1, 7], edition), Ok((Operation::new(9, &[1]), 2)));
    }
}

/// "in edition 1 reading or writing it gives 6": before its fields are looked at.
#[test]
fn the_code_13() {
    for (bytes, second) in [
        (&[13][..], Err(3)),
        (&[13, 128], Err(3)),
        (&[13, 130, 0], Err(3)),
        (&[13, 130, 0, 1], Err(4)),
        (&[13, 2, 145, 0], Err(4)),
        (&[13, 2, 17, 9], Ok((Operation::new(13, &[2, 17]), 3))),
    ] {
        assert_eq!(read_record(bytes, Edition::First), Err(6), "{bytes:?}");
        assert_eq!(read_record(bytes, Edition::Second), second, "{bytes:?}");
    }
}

/// "Check 5 now turns down a first number other than 1 or 2."
#[test]
fn the_editions() {
    assert_eq!((Edition::try_from(1), Edition::try_from(2)), (Ok(Edition::First), Ok(Edition::Second)));
    for number in [0, 3, 129, 257, 1 << 32, u64::MAX] {
        assert_eq!(Edition::try_from(number), Err(5));
    }
}

/// "Writing an operation as a record checks 1, 6 and the limit in 4"; the edition comes before these.
#[test]
fn the_writer() {
    for edition in [1, 2] {
        assert_eq!(write_record(&Operation::new(12, &[130, 0, 1 << 40]), edition), Ok(vec![12, 130, 1, 0]));
        assert_eq!(write_record(&Operation::new(14, &[1 << 32]), edition), Err(6));
        assert_eq!(write_record(&Operation::new(0, &[1 << 32]), edition), Err(6));
        assert_eq!(write_record(&Operation::new(1 << 32, &[]), edition), Err(4));
        assert_eq!(write_record(&Operation::new(9, &[1 << 32]), edition), Err(4));
    }
    assert_eq!(write_record(&Operation::new(13, &[2, 16]), 1), Err(6));
    assert_eq!(write_record(&Operation::new(13, &[1 << 32, 16]), 1), Err(6));
    assert_eq!(write_record(&Operation::new(13, &[2, 300, 1 << 40]), 2), Ok(vec![13, 2, 172, 2]));
    assert_eq!(write_record(&Operation::new(13, &[2, 1 << 32]), 2), Err(4));
    for edition in [0, 3, 258, 1 << 32, u64::MAX] {
        for operation in [Operation::new(9, &[1]), Operation::new(1 << 32, &[]), Operation::new(14, &[1 << 32])] {
            assert_eq!(write_record(&operation, edition), Err(5));
        }
    }
}

/// Every code with fields of every width: what is written reads back, as one record with bytes behind it too.
#[test]
fn written_records_read_back() {
    let mut random = Random::new(13);
    for _ in 0..4_000 {
        let mut field = || random.draw() >> (32 + random.below(32));
        let fields = [field(), field(), field(), field(), field()];
        let operation = Operation { code: 1 + random.below(13), fields };
        for edition in [Edition::First, Edition::Second] {
            let Ok(mut bytes) = write_record(&operation, edition.number()) else {
                assert_eq!((operation.code, edition), (13, Edition::First));
                continue;
            };
            let length = bytes.len();
            let known = Operation::new(operation.code, operation.known_fields());
            assert_eq!(read_record(&bytes, edition), Ok((known, length)));
            bytes.push(128);
            assert_eq!(read_record(&bytes, edition), Ok((known, length)));
            (1..length).for_each(|cut| assert_eq!(read_record(&bytes[..cut], edition), Err(3)));
        }
    }
}

#[test]
fn a_parsed_sheet() {
    let (operations, ending) = parse_sheet(&[1, 9, 1, 10, 2, 12, 2]);
    assert_eq!(operations, [Operation::new(9, &[1]), Operation::new(10, &[2])]);
    assert_eq!(ending, Ending::Refused { record: 3, refused: 3 });
    assert_eq!(parse_sheet(&[1]), (vec![], Ending::Whole));
    assert_eq!(parse_sheet(&[2]), (vec![], Ending::Whole));
    assert_eq!(parse_sheet(&[3]), (vec![], Ending::Refused { record: 0, refused: 5 }));
    assert_eq!(parse_sheet(&[1, 13, 2, 1]), (vec![], Ending::Refused { record: 1, refused: 6 }));
    assert_eq!(parse_sheet(&[2, 13, 2, 1]), (vec![Operation::new(13, &[2, 1])], Ending::Whole));
}
