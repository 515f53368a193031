//! From the raw input to the translated bytes: "all rules below and all sums
//! apply to the translated bytes".

use std::borrow::Cow;

use crate::bytes::{HIGHEST_PRINTABLE, LOWEST_PRINTABLE, NUL, SOH, UNDERSCORE};
use crate::hex::{byte_value, frame_digit};
use crate::numbers::{Number, BAD_LEAD, BAD_LENGTH, BAD_PRINTABLE};

/// "over 8,192 bytes standard", and "over 8,192 translated".
pub const MOST_TRANSLATED: usize = 8_192;
/// "24,576 printable".
pub const MOST_PRINTABLE: usize = 24_576;

/// The two ways in which a frame can be sent.
#[derive(Clone, Copy, Debug, PartialEq, Eq)]
pub enum Way {
    Standard,
    Printable,
}

/// A frame's bytes after translation, and how they were sent.
#[derive(Debug)]
pub struct Translated<'a> {
    pub bytes: Cow<'a, [u8]>,
    pub way: Way,
}

/// "empty (3), first byte (4), raw length (3), 5, translated length (3)".
pub fn translate(raw: &[u8]) -> Result<Translated<'_>, Number> {
    let first = first_byte(raw)?;
    let way = way_of(first)?;
    check_raw_length(raw, way)?;
    let bytes = match way {
        Way::Standard => Cow::Borrowed(raw),
        Way::Printable => Cow::Owned(without_escapes(raw)?),
    };
    check_translated_length(&bytes)?;
    Ok(Translated { bytes, way })
}

/// "input empty".
fn first_byte(raw: &[u8]) -> Result<u8, Number> {
    raw.first().copied().ok_or(BAD_LENGTH)
}

/// "First byte 00H or 01H: standard. 5FH: printable".
fn way_of(first: u8) -> Result<Way, Number> {
    match first {
        NUL | SOH => Ok(Way::Standard),
        UNDERSCORE => Ok(Way::Printable),
        _ => Err(BAD_LEAD),
    }
}

/// "over 8,192 bytes standard or 24,576 printable".
fn check_raw_length(raw: &[u8], way: Way) -> Result<(), Number> {
    let most = match way {
        Way::Standard => MOST_TRANSLATED,
        Way::Printable => MOST_PRINTABLE,
    };
    if raw.len() > most {
        return Err(BAD_LENGTH);
    }
    Ok(())
}

/// "over 8,192 translated".
fn check_translated_length(bytes: &[u8]) -> Result<(), Number> {
    if bytes.len() > MOST_TRANSLATED {
        return Err(BAD_LENGTH);
    }
    Ok(())
}

/// ""_" and two upper-case hex digits stand for that byte and 20H to 7EH
/// otherwise stand for themselves". Request 4 takes small letters too: "The base
/// example `_0a` becomes a good escape."
fn without_escapes(raw: &[u8]) -> Result<Vec<u8>, Number> {
    let mut bytes = Vec::with_capacity(raw.len());
    let mut rest = raw;
    loop {
        rest = match rest {
            [] => return Ok(bytes),
            [UNDERSCORE, high, low, after @ ..] => {
                let value = byte_value([*high, *low], frame_digit).ok_or(BAD_PRINTABLE)?;
                bytes.push(value);
                after
            }
            [UNDERSCORE, ..] => return Err(BAD_PRINTABLE),
            [byte @ LOWEST_PRINTABLE..=HIGHEST_PRINTABLE, after @ ..] => {
                bytes.push(*byte);
                after
            }
            _ => return Err(BAD_PRINTABLE),
        };
    }
}
