//! "What each command does": one block on one board.

use super::files::{content_of, find, store, File};
use super::record::Kind;
use super::reply::reply;
use super::special;
use super::Board;
use crate::bytes::{READ_SPECIAL, READ_STRING, READ_TEXT, WRITE_SPECIAL, WRITE_STRING, WRITE_TEXT};
use crate::frame::body::Block;
use crate::frame::sum;
use crate::numbers::{Number, MALFORMED, MESSAGE_TOO_LONG, NO_FILE, UNKNOWN, WRONG_SUM};

/// Runs one block: its reply where it is a read. Request 10: "A refused block now
/// changes nothing but this register".
pub fn run_block(board: &mut Board, block: &Block<'_>) -> Result<Option<Vec<u8>>, Number> {
    let outcome = do_block(board, block);
    if let Err(number) = outcome {
        board.settings = board.settings.with_refusal(number);
    }
    outcome
}

/// Does what the block asks for, or tells why not and leaves the board as it was.
/// "A block: 20 to 27 ascending".
fn do_block(board: &mut Board, block: &Block<'_>) -> Result<Option<Vec<u8>>, Number> {
    check_sum(block)?;
    let data = block.data;
    match block.command {
        WRITE_TEXT => write_file(board, Kind::Text, data).map(|()| None),
        WRITE_STRING => write_file(board, Kind::String, data).map(|()| None),
        WRITE_SPECIAL => special::set(board, data).map(|()| None),
        READ_TEXT => read_file(board, Kind::Text, data).map(Some),
        READ_STRING => read_file(board, Kind::String, data).map(Some),
        READ_SPECIAL => special::get(board, data).map(Some),
        _ => Err(UNKNOWN),
    }
}

/// "block: wrong checksum".
fn check_sum(block: &Block<'_>) -> Result<(), Number> {
    if sum::is_wrong(block) {
        return Err(WRONG_SUM);
    }
    Ok(())
}

/// "A, G: label and message, which may be empty. The TEXT or STRING file then
/// holds the message, zeros after it."
fn write_file(board: &mut Board, kind: Kind, data: &[u8]) -> Result<(), Number> {
    let (&label, message) = data.split_first().ok_or(MALFORMED)?;
    let file = file_of(board, kind, label)?;
    if message.len() > file.record.content_length() {
        return Err(MESSAGE_TOO_LONG);
    }
    store(&mut board.memory, &file, message);
    Ok(())
}

/// "B, H: label alone. The reply carries the content without its zeros."
fn read_file(board: &Board, kind: Kind, data: &[u8]) -> Result<Vec<u8>, Number> {
    let [label] = *data else {
        return Err(MALFORMED);
    };
    let file = file_of(board, kind, label)?;
    let write_code = match kind {
        Kind::Text => WRITE_TEXT,
        Kind::String => WRITE_STRING,
    };
    Ok(reply(write_code, label, content_of(&board.memory, &file)))
}

/// "no file of that label and type".
fn file_of(board: &Board, kind: Kind, label: u8) -> Result<File, Number> {
    find(&board.memory, &board.settings.index, label, kind).ok_or(NO_FILE)
}
