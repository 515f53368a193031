//! "E "$": a list of 0 to 64 records replaces all files, contents empty."

use super::files::MOST_FILES;
use super::index::{Begin, Index};
use super::record::{labels_are_distinct, Kind, Record, RECORD_LENGTH};
use super::settings::Settings;
use super::unused::unused;
use super::Board;
use crate::bytes::NUL;
use crate::hex::frame_digit;
use crate::numbers::{Number, BAD_LIST, LABEL_TWICE, NO_ROOM};

/// Replaces all files. "faults in a "$" list are 25 to 27, never 22". The settings
/// are told how many files there are, by request 3 the memory that they leave
/// unused, and by request 7 where they begin.
pub fn configure(board: &mut Board, list: &[u8]) -> Result<(), Number> {
    let mut records = records(list)?;
    let files = u8::try_from(records.len()).map_err(|_| BAD_LIST)?;
    check_labels(&records)?;
    let unused = give_room(&mut records, board.memory.len())?;
    let index = Index::of(&lay_out(&records, &mut board.memory));
    board.settings = Settings {
        files,
        unused,
        index,
        ..board.settings
    };
    Ok(())
}

/// ""$": bad record, count or length" (25).
fn records(list: &[u8]) -> Result<Vec<Record>, Number> {
    let pieces = list.chunks_exact(RECORD_LENGTH);
    if !pieces.remainder().is_empty() || pieces.len() > MOST_FILES {
        return Err(BAD_LIST);
    }
    let last = pieces.len().saturating_sub(1);
    pieces
        .enumerate()
        .map(|(place, bytes)| record(bytes, place == last).ok_or(BAD_LIST))
        .collect()
}

/// "SIZE 0000 is allowed only in a last TEXT record". Request 4 takes small letters
/// in "the hex digits of configuration records", SIZE and QQQQ; the record is stored
/// in capitals.
fn record(bytes: &[u8], is_last: bool) -> Option<Record> {
    let bytes = <[u8; RECORD_LENGTH]>::try_from(bytes).ok()?;
    let record = Record::parse(bytes, frame_digit)?;
    let takes_rest = is_last && record.kind == Kind::Text;
    (record.size != 0 || takes_rest).then_some(record)
}

/// "label twice" (26).
fn check_labels(records: &[Record]) -> Result<(), Number> {
    if labels_are_distinct(records) {
        Ok(())
    } else {
        Err(LABEL_TWICE)
    }
}

/// "Sizes plus 11 for each must not exceed memory"; a SIZE of 0000 "takes what
/// remains after its own 11 bytes, at least 1, and the record is stored with
/// that size" (27). Gives what no file takes.
fn give_room(records: &mut [Record], memory_length: usize) -> Result<u16, Number> {
    let remains = unused(memory_length, records).ok_or(NO_ROOM)?;
    match records.last_mut() {
        Some(last) if last.size == 0 => {
            last.size = rest_size(remains)?;
            Ok(0)
        }
        _ => Ok(remains),
    }
}

/// "what remains after its own 11 bytes, at least 1".
fn rest_size(remains: u16) -> Result<u16, Number> {
    if remains == 0 {
        return Err(NO_ROOM);
    }
    Ok(remains)
}

/// "replaces all files, contents empty"; "Unused memory stays unused." Tells
/// where each file begins.
fn lay_out(records: &[Record], memory: &mut [u8]) -> Vec<Begin> {
    memory.fill(NUL);
    let mut begins = Vec::new();
    let mut place = 0;
    for record in records {
        if let Some(bytes) = memory.get_mut(place..place + RECORD_LENGTH) {
            bytes.copy_from_slice(&record.to_bytes());
        }
        begins.push(Begin {
            label: record.label,
            place,
        });
        place += record.whole_length();
    }
    begins
}
