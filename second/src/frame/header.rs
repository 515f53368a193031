//! The header: pairs of a type code and an address, and the boards they fit.

use crate::bytes::{ANY_DIGIT, COMMA, STX, ZERO_DIGIT};
use crate::hex::{byte_digits, capital, frame_digit};
use crate::numbers::{Number, BAD_HEADER};

/// "1 to 16 pairs joined by commas".
const MOST_PAIRS: usize = 16;

/// The boards that a type code fits. Request 11: by a first start "every board is
/// fitted" too.
#[derive(Clone, Copy, Debug, PartialEq, Eq)]
pub enum Fit {
    EveryBoard,
    FirstStart,
    NoBoard,
    OwnType(u8),
}

/// One pair of a header, its address characters in capitals.
#[derive(Clone, Copy, Debug, PartialEq, Eq)]
pub struct Pair {
    pub fit: Fit,
    pub address: [u8; 2],
}

/// "A pair is a type code of Table 4": what it fits, or none where the byte
/// is not taken. "Types "!", "?", "Z" fit every board; "0" and 22H none;
/// others their own type". Request 11 takes "z".
pub fn fit_of(type_code: u8) -> Option<Fit> {
    match type_code {
        b'!' | b'?' | b'Z' => Some(Fit::EveryBoard),
        b'z' => Some(Fit::FirstStart),
        b'0' | 0x22 => Some(Fit::NoBoard),
        0x23..=0x26 | 0x31 | 0x32 | 0x43..=0x45 | 0x55 | 0x5E | 0x61..=0x72 | 0x74 | 0x75 => {
            Some(Fit::OwnType(type_code))
        }
        _ => None,
    }
}

/// "Own type is one of Table 4's codes 23H to 26H, 31H, 32H, 43H, 44H, 45H,
/// 55H, 5EH, 61H to 72H, 74H, 75H".
pub fn is_own_type(type_code: u8) -> bool {
    matches!(fit_of(type_code), Some(Fit::OwnType(_)))
}

/// "up to the first block's STX; with no such STX the header is bad": the
/// header text, and the body from its STX on.
pub fn split(bytes: &[u8]) -> Result<(&[u8], &[u8]), Number> {
    let end = bytes.iter().position(|&byte| byte == STX);
    end.map(|end| bytes.split_at(end)).ok_or(BAD_HEADER)
}

/// "1 to 16 pairs joined by commas".
pub fn pairs(text: &[u8]) -> Result<Vec<Pair>, Number> {
    let pairs: Option<Vec<Pair>> = text.split(|&byte| byte == COMMA).map(pair).collect();
    match pairs {
        Some(pairs) if pairs.len() <= MOST_PAIRS && start_is_alone(&pairs) => Ok(pairs),
        _ => Err(BAD_HEADER),
    }
}

/// Request 11: "The type works only as a header's sole pair".
fn start_is_alone(pairs: &[Pair]) -> bool {
    pairs.len() == 1 || !starts(pairs)
}

/// Whether a header's frame is a "First start of a new sign".
pub fn starts(pairs: &[Pair]) -> bool {
    pairs.iter().any(|pair| pair.fit == Fit::FirstStart)
}

/// "A pair is a type code of Table 4 and two address characters".
fn pair(text: &[u8]) -> Option<Pair> {
    match text {
        [code, high, low] if is_address_character(*high) && is_address_character(*low) => {
            Some(Pair {
                fit: fit_of(*code)?,
                address: [capital(*high), capital(*low)],
            })
        }
        _ => None,
    }
}

/// The capitals of a header text that reads well, in which headers are compared
/// and written: "Headers that differ only in this count as equal". A type code is
/// no hex digit and stays as it is.
pub fn capitals(text: &[u8]) -> Vec<u8> {
    let pairs: Vec<Vec<u8>> = text
        .split(|&byte| byte == COMMA)
        .map(capitals_of_pair)
        .collect();
    pairs.join(&COMMA)
}

/// The type code as it is and the capitals of the address characters.
fn capitals_of_pair(text: &[u8]) -> Vec<u8> {
    let (code, address) = text.split_at(text.len().min(1));
    let address = address.iter().map(|&character| capital(character));
    code.iter().copied().chain(address).collect()
}

/// "each 0 to 9, A to F or "?""; request 4 takes a to f too.
fn is_address_character(byte: u8) -> bool {
    byte == ANY_DIGIT || frame_digit(byte).is_some()
}

/// "A board is addressed when any pair fits."
pub fn addressed(pairs: &[Pair], own_type: u8, address: u8) -> bool {
    pairs
        .iter()
        .any(|pair| type_fits(pair.fit, own_type) && address_fits(pair.address, address))
}

fn type_fits(fit: Fit, own_type: u8) -> bool {
    match fit {
        Fit::EveryBoard | Fit::FirstStart => true,
        Fit::NoBoard => false,
        Fit::OwnType(code) => code == own_type,
    }
}

/// ""00" fits every address. Otherwise each character equals the address's
/// digit or is "?", and such a pair never fits address 00".
fn address_fits(characters: [u8; 2], address: u8) -> bool {
    if characters == [ZERO_DIGIT, ZERO_DIGIT] {
        return true;
    }
    let digits = byte_digits(address);
    address != 0
        && characters
            .iter()
            .zip(digits)
            .all(|(&character, digit)| character == digit || character == ANY_DIGIT)
}
