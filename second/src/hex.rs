//! Hex digits, read and written.
//!
//! The digits that a frame carries and the digits that memory stores are two
//! ideas with one rule each. Request 4: "A meter vendor writes hex digits a to f in
//! lower case." Frames may carry them; "What we store and reply stays in capitals".

/// A rule that gives a digit's value, or none where the byte is no digit.
pub type DigitRule = fn(u8) -> Option<u8>;

/// A digit in a frame, in capitals or in small letters: "Take them in checksums,
/// escapes, header addresses, Set Serial Address and the hex digits of
/// configuration records."
pub fn frame_digit(byte: u8) -> Option<u8> {
    memory_digit(capital(byte))
}

/// A digit in a record in memory: "SIZE: four upper-case hex digits".
pub fn memory_digit(byte: u8) -> Option<u8> {
    match byte {
        b'0'..=b'9' => Some(byte - b'0'),
        b'A'..=b'F' => Some(byte - b'A' + 10),
        _ => None,
    }
}

/// The capital of a small letter a to f; any other byte is its own.
pub fn capital(byte: u8) -> u8 {
    match byte {
        b'a'..=b'f' => byte - b'a' + b'A',
        _ => byte,
    }
}

/// The value of two digits, the most significant first.
pub fn byte_value(digits: [u8; 2], rule: DigitRule) -> Option<u8> {
    let [high, low] = digits;
    Some(rule(high)? * 16 + rule(low)?)
}

/// The value of four digits, the most significant first.
pub fn word_value(digits: [u8; 4], rule: DigitRule) -> Option<u16> {
    let [a, b, c, d] = digits;
    let high = byte_value([a, b], rule)?;
    let low = byte_value([c, d], rule)?;
    Some(u16::from_be_bytes([high, low]))
}

/// The digit, upper-case, of the low four bits of `value`.
fn digit_of(value: u8) -> u8 {
    match value & 0x0F {
        small @ 0..=9 => b'0' + small,
        large => b'A' + (large - 10),
    }
}

/// A byte as two digits.
pub fn byte_digits(value: u8) -> [u8; 2] {
    [digit_of(value >> 4), digit_of(value)]
}

/// A 16-bit number as four digits.
pub fn word_digits(value: u16) -> [u8; 4] {
    let [high, low] = value.to_be_bytes();
    let [a, b] = byte_digits(high);
    let [c, d] = byte_digits(low);
    [a, b, c, d]
}
