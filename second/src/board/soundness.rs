//! "A board is sound when all this holds and time, date, speaker, format, type
//! are in range. Any address 00 to FF is in range." Request 3: "1 when the stored
//! amount is wrong." Request 7: "1 when it is wrong." Request 9: "1 for an offset
//! outside -9 to 9". Request 10: "1 for a register whose fixed bits are not as the
//! table has them."

use super::files::{walk, File, MOST_FILES};
use super::index::Begin;
use super::record::Record;
use super::register::is_register;
use super::settings::{is_date, is_format, is_speaker, is_time, Settings};
use super::unused::unused;
use super::Board;
use crate::bytes::{LOWEST_DATA, NUL};
use crate::frame::header::is_own_type;
use crate::temperature::is_offset;

/// "Memory is 64 to 32,768 bytes."
pub const LEAST_MEMORY: usize = 64;
pub const MOST_MEMORY: usize = 32_768;

/// Whether settings and memory together are a sound board.
pub fn is_sound(board: &Board) -> bool {
    settings_are_in_range(board.settings)
        && is_memory_length(board.memory.len())
        && files_are_sound(&board.memory, board.settings)
}

/// "Memory is 64 to 32,768 bytes."
pub fn is_memory_length(length: usize) -> bool {
    (LEAST_MEMORY..=MOST_MEMORY).contains(&length)
}

/// "time, date, speaker, format, type are in range", a date being one that
/// exists, and the offset and the register too; "It holds 0 to 64 files".
fn settings_are_in_range(settings: Settings) -> bool {
    is_time(settings.hour, settings.minute)
        && is_date(settings.month, settings.day, settings.year)
        && is_format(settings.format)
        && is_speaker(settings.speaker)
        && is_own_type(settings.own_type)
        && usize::from(settings.files) <= MOST_FILES
        && is_offset(settings.offset)
        && is_register(settings.register)
}

/// "in order without gaps"; "Memory after the last file is 00H."; the stored
/// amount is what the files leave, and the index is true of them. That says too
/// that "Labels are distinct".
fn files_are_sound(memory: &[u8], settings: Settings) -> bool {
    let Some((files, end)) = walk(memory, settings.files) else {
        return false;
    };
    let records: Vec<Record> = files.iter().map(|file| file.record).collect();
    let begins: Vec<Begin> = files.iter().map(File::begin).collect();
    files.iter().all(|file| content_is_sound(memory, file))
        && all_zero(memory.get(end..).unwrap_or_default())
        && unused(memory.len(), &records) == Some(settings.unused)
        && settings.index.is_true_of(&begins)
}

/// "Content is zero or more bytes 05H to FFH, then 00H up to SIZE."
fn content_is_sound(memory: &[u8], file: &File) -> bool {
    let content = memory.get(file.content.clone()).unwrap_or_default();
    let length = content.iter().take_while(|&&b| b >= LOWEST_DATA).count();
    all_zero(content.split_at(length).1)
}

fn all_zero(bytes: &[u8]) -> bool {
    bytes.iter().all(|&byte| byte == NUL)
}
