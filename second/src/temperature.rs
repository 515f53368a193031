//! The temperature that a sign shows, request 9: "A call adds the offset to a
//! reading from -128 to 127 and returns the exact sum."

use crate::numbers::{Number, NOT_SOUND, WRONG_READING};

/// Request 9: "a sign and one digit 0 to 9, so -9 to 9".
pub const LEAST_OFFSET: i8 = -9;
pub const MOST_OFFSET: i8 = 9;
/// Request 9: "a reading from -128 to 127".
pub const LEAST_READING: i16 = -128;
pub const MOST_READING: i16 = 127;

/// Whether a sign can hold the offset.
pub fn is_offset(offset: i8) -> bool {
    (LEAST_OFFSET..=MOST_OFFSET).contains(&offset)
}

/// The reading with the offset added. Request 9: "1 for an offset outside -9 to 9,
/// from the call too; then 33 for a reading outside its range". Neither end of the
/// sums, -137 and 136, is a number of one byte.
pub fn temperature(offset: i8, reading: i16) -> Result<i16, Number> {
    if !is_offset(offset) {
        return Err(NOT_SOUND);
    }
    if !(LEAST_READING..=MOST_READING).contains(&reading) {
        return Err(WRONG_READING);
    }
    Ok(i16::from(offset) + reading)
}
