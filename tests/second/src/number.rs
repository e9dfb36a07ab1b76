//! Numbers as bytes.

/// The limit in check 4.
pub const MAX_NUMBER: u64 = 4_294_967_295;

/// "A number is written in groups of seven bits, lowest first, high bit set on all but the last byte, in the fewest
/// bytes."
pub fn write_number(mut value: u64, into: &mut Vec<u8>) {
    while value >= 128 {
        into.push((value % 128) as u8 + 128);
        value /= 128;
    }
    into.push(value as u8);
}

/// The bytes of the number that begins here, up to its last byte; `None` if it is cut short. A number without a last
/// byte is cut short, however long it is (reading 1).
pub fn number_bytes(bytes: &[u8]) -> Option<&[u8]> {
    let last = bytes.iter().position(|byte| *byte < 128)?;
    Some(&bytes[..=last])
}

/// The value of a number's bytes; `None` if it "is not in its shortest form or exceeds 4,294,967,295".
pub fn number_value(number: &[u8]) -> Option<u64> {
    let padded = number.len() > 1 && number.last() == Some(&0);
    // Five groups hold 35 bits, so a longer number in its shortest form exceeds the limit.
    if padded || number.len() > 5 {
        return None;
    }
    let value = number.iter().rev().fold(0, |value, byte| value * 128 + u64::from(byte % 128));
    (value <= MAX_NUMBER).then_some(value)
}
