//! Request 11, "First start of a new sign": the board "first gets, as by "$", files A
//! to Z of 150 bytes each, TEXT, unlocked, always shown (start FF, stop 00), and then
//! runs the blocks". It is no block itself: it is not counted and has no place.

use super::configuration::configure;
use super::record::{Kind, Record};
use super::Board;
use crate::numbers::{Number, NO_ROOM_TO_START};

/// "memory below 4,186 bytes".
pub const LEAST_TO_START: usize = 4_186;
/// "files A to Z".
const FIRST_FILE: u8 = b'A';
const LAST_FILE: u8 = b'Z';
/// "of 150 bytes each".
const FILE_SIZE: u16 = 150;
/// "always shown (start FF, stop 00)".
const ALWAYS: u8 = 0xFF;
const NO_STOP: u8 = 0x00;

/// Gives the board the 26 files in the place of all that it had; they stay whatever
/// becomes of the blocks.
pub fn first_start(board: &mut Board) -> Result<(), Number> {
    if board.memory.len() < LEAST_TO_START {
        return Err(NO_ROOM_TO_START);
    }
    let records = (FIRST_FILE..=LAST_FILE).map(record);
    let list: Vec<u8> = records.flat_map(Record::to_bytes).collect();
    configure(board, &list)
}

/// "TEXT, unlocked, always shown".
fn record(label: u8) -> Record {
    Record {
        label,
        kind: Kind::Text,
        locked: false,
        size: FILE_SIZE,
        start: ALWAYS,
        stop: NO_STOP,
    }
}
