//! Records of operations: reading, writing, and a whole sheet's.

use crate::edition::Edition;
use crate::number::{number_bytes, number_value, write_number, MAX_NUMBER};
use crate::operation::{Operation, MAX_FIELDS};

/// One number and where the next one begins, or the refusal 3 or 4.
pub fn read_number(bytes: &[u8]) -> Result<(u64, usize), u32> {
    let number = number_bytes(bytes).ok_or(3u32)?;
    let value = number_value(number).ok_or(4u32)?;
    Ok((value, number.len()))
}

/// The record that begins here, in a sheet of that edition, and its length, or the refusal 3, 4 or 6.
///
/// "a record's code meets 3, 4 and 6 before its fields are read, as it says how many they are"; over the fields, 3
/// comes before 4 (reading 1).
pub fn read_record(bytes: &[u8], edition: Edition) -> Result<(Operation, usize), u32> {
    let (code, mut used) = read_number(bytes)?;
    let count = edition.field_count(code).ok_or(6u32)?;
    let mut found: [&[u8]; MAX_FIELDS] = [&[]; MAX_FIELDS];
    for number in &mut found[..count] {
        *number = number_bytes(&bytes[used..]).ok_or(3u32)?;
        used += number.len();
    }
    let mut fields = [0; MAX_FIELDS];
    for (field, number) in fields.iter_mut().zip(&found[..count]) {
        *field = number_value(number).ok_or(4u32)?;
    }
    Ok((Operation { code, fields }, used))
}

/// "A sheet is the number 1, then records", or the number 2: its edition and the length of the first number, or the
/// refusal 3, 4 or 5.
pub fn read_first(bytes: &[u8]) -> Result<(Edition, usize), u32> {
    let (number, used) = read_number(bytes)?;
    Ok((Edition::try_from(number)?, used))
}

/// "Writing an operation as a record checks 1, 6 and the limit in 4": the code meets 4, then 6, then its fields 4
/// (reading 12). "the writer is told the edition, and turns down any but 1 or 2 with 5, after check 1". The memory is
/// the vector's own here, so 1 is never met.
pub fn write_record(operation: &Operation, edition: u64) -> Result<Vec<u8>, u32> {
    let edition = Edition::try_from(edition)?;
    let mut bytes = vec![];
    if operation.code > MAX_NUMBER {
        return Err(4);
    }
    let count = edition.field_count(operation.code).ok_or(6u32)?;
    let fields = &operation.fields[..count];
    if fields.iter().any(|field| *field > MAX_NUMBER) {
        return Err(4);
    }
    write_number(operation.code, &mut bytes);
    fields.iter().for_each(|field| write_number(*field, &mut bytes));
    Ok(bytes)
}

/// How a sheet's bytes end. "Refusals 3 to 6 follow from the sheet's bytes alone."
#[derive(Clone, Copy, Debug, PartialEq, Eq)]
pub enum Ending {
    /// After a whole record, or after the first number.
    Whole,
    /// "numbered as the record begun (0 for the first number)"
    Refused { record: u64, refused: u32 },
}

/// All whole records of a sheet, and how its bytes end.
pub fn parse_sheet(bytes: &[u8]) -> (Vec<Operation>, Ending) {
    let mut operations = vec![];
    let (edition, mut rest) = match read_first(bytes) {
        Ok((edition, used)) => (edition, &bytes[used..]),
        Err(refused) => return (operations, Ending::Refused { record: 0, refused }),
    };
    while !rest.is_empty() {
        match read_record(rest, edition) {
            Ok((operation, used)) => {
                operations.push(operation);
                rest = &rest[used..];
            }
            Err(refused) => {
                let record = operations.len() as u64 + 1;
                return (operations, Ending::Refused { record, refused });
            }
        }
    }
    (operations, Ending::Whole)
}
