//! The special functions: "E" sets them, "F" reads them.

use super::configuration::configure;
use super::files::records_text;
use super::reply::reply;
use super::Board;
use crate::bytes::{
    CLEAR_REGISTER, COMMA, CONFIGURATION, DATE, POOL, READ_REGISTER, SERIAL_ADDRESS, SPEAKER,
    TEMPERATURE_OFFSET, TIME, TIME_FORMAT, WRITE_SPECIAL,
};
use crate::hex::word_digits;
use crate::numbers::{Number, MALFORMED, UNKNOWN};

/// "E": a label and its data. "a known command without its label is 22"; a
/// label not listed is 21, whatever follows it.
pub fn set(board: &mut Board, data: &[u8]) -> Result<(), Number> {
    let (&label, rest) = data.split_first().ok_or(MALFORMED)?;
    let settings = board.settings;
    board.settings = match label {
        TIME => settings.with_time(rest).ok_or(MALFORMED)?,
        SPEAKER => settings.with_speaker(rest).ok_or(MALFORMED)?,
        TIME_FORMAT => settings.with_format(rest).ok_or(MALFORMED)?,
        DATE => settings.with_date(rest).ok_or(MALFORMED)?,
        SERIAL_ADDRESS => settings.with_address(rest).ok_or(MALFORMED)?,
        TEMPERATURE_OFFSET => settings.with_offset(rest).ok_or(MALFORMED)?,
        CLEAR_REGISTER => {
            check_no_data(rest)?;
            settings.with_cleared_register()
        }
        CONFIGURATION => return configure(board, rest),
        _ => return Err(UNKNOWN),
    };
    Ok(())
}

/// "F: labels 20H, "!", "'", ";", "$" and "#", without data. Replies use the
/// layouts above". Request 9 asks for no reading of the offset, so "T" is none of
/// them. Request 10 adds "*", which replies with the register as it was and then
/// clears it.
pub fn get(board: &mut Board, data: &[u8]) -> Result<Vec<u8>, Number> {
    let (&label, rest) = data.split_first().ok_or(MALFORMED)?;
    let settings = board.settings;
    let text = match label {
        TIME => settings.time_text(),
        SPEAKER => settings.speaker_text(),
        TIME_FORMAT => settings.format_text(),
        DATE => settings.date_text(),
        CONFIGURATION => records_text(&board.memory, settings.files),
        POOL => pool_text(board),
        READ_REGISTER => settings.register_text(),
        _ => return Err(UNKNOWN),
    };
    check_no_data(rest)?;
    if label == READ_REGISTER {
        board.settings = settings.with_cleared_register();
    }
    Ok(reply(WRITE_SPECIAL, label, &text))
}

/// "without data". Request 10: "22 for data in excess".
fn check_no_data(rest: &[u8]) -> Result<(), Number> {
    if rest.is_empty() {
        Ok(())
    } else {
        Err(MALFORMED)
    }
}

/// ""#" gives POOL,pool, total and unused, four hex digits each." Request 3: the
/// amount is the stored one, so that no poll "adds up all records".
fn pool_text(board: &Board) -> Vec<u8> {
    let mut text = size_text(board.memory.len()).to_vec();
    text.push(COMMA);
    text.extend(word_digits(board.settings.unused));
    text
}

/// A size of at most 32,768 as four hex digits.
fn size_text(size: usize) -> [u8; 4] {
    word_digits(u16::try_from(size).unwrap_or(u16::MAX))
}
