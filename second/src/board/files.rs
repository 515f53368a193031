//! The files in memory: "0 to 64 files in order without gaps: an 11-byte
//! record in ASCII, then SIZE bytes of content".

use std::ops::Range;

use super::index::{Begin, Index};
use super::record::{Kind, Record, RECORD_LENGTH};
use crate::bytes::NUL;
use crate::hex::memory_digit;

/// "0 to 64 files".
pub const MOST_FILES: usize = 64;

/// A file's record, where that begins and where the content stands.
#[derive(Clone, Debug, PartialEq, Eq)]
pub struct File {
    pub record: Record,
    pub place: usize,
    pub content: Range<usize>,
}

impl File {
    /// The label and the place of its record.
    pub fn begin(&self) -> Begin {
        Begin {
            label: self.record.label,
            place: self.place,
        }
    }
}

/// The first files of memory and the place after the last of them, or none
/// where a record is not good or a file does not fit.
pub fn walk(memory: &[u8], count: u8) -> Option<(Vec<File>, usize)> {
    let mut files = Vec::new();
    let mut place = 0;
    for _ in 0..count {
        let file = file_at(memory, place)?;
        place = file.content.end;
        files.push(file);
    }
    Some((files, place))
}

/// "an 11-byte record in ASCII, then SIZE bytes of content"; SIZE is "not 0000
/// in memory".
fn file_at(memory: &[u8], place: usize) -> Option<File> {
    let start = place + RECORD_LENGTH;
    let bytes = memory.get(place..start)?;
    let record = Record::parse(<[u8; RECORD_LENGTH]>::try_from(bytes).ok()?, memory_digit)?;
    let content = start..start + record.content_length();
    let is_there = record.size != 0 && content.end <= memory.len();
    is_there.then_some(File {
        record,
        place,
        content,
    })
}

/// The file of that label and type on a sound board. Request 7: the label's entry
/// tells where its record begins, so that nothing "walks the records", and the
/// type is looked at there.
pub fn find(memory: &[u8], index: &Index, label: u8, kind: Kind) -> Option<File> {
    let file = file_at(memory, index.place_of(label)?)?;
    (file.record.kind == kind).then_some(file)
}

/// "The reply carries the content without its zeros."
pub fn content_of<'a>(memory: &'a [u8], file: &File) -> &'a [u8] {
    let content = memory.get(file.content.clone()).unwrap_or_default();
    let length = content.iter().take_while(|&&byte| byte != NUL).count();
    content.split_at(length).0
}

/// "The TEXT or STRING file then holds the message, zeros after it." The
/// message is no longer than SIZE.
pub fn store(memory: &mut [u8], file: &File, message: &[u8]) {
    let content = memory.get_mut(file.content.clone()).unwrap_or_default();
    let zeros = std::iter::repeat(&NUL);
    for (place, &byte) in content.iter_mut().zip(message.iter().chain(zeros)) {
        *place = byte;
    }
}

/// All records as they stand in memory: what "$" replies.
pub fn records_text(memory: &[u8], count: u8) -> Vec<u8> {
    let (files, _) = walk(memory, count).unwrap_or_default();
    files
        .iter()
        .flat_map(|file| file.record.to_bytes())
        .collect()
}
