//! "A record is F T P SIZE QQQQ (Table 14)": eleven bytes in ASCII.

use crate::hex::{byte_digits, byte_value, word_digits, word_value, DigitRule};

/// "an 11-byte record in ASCII".
pub const RECORD_LENGTH: usize = 11;
/// "a STRING's is 1 to 125".
pub const LONGEST_STRING: u16 = 125;
/// "a start code 00 to 8F, FD, FE or FF and a stop code 00 to 8F".
pub const LAST_TIME_CODE: u8 = 0x8F;
pub const FIRST_NAMED_CODE: u8 = 0xFD;

const TEXT_CODE: u8 = b'A';
const STRING_CODE: u8 = b'B';
const UNLOCKED: u8 = b'U';
const LOCKED: u8 = b'L';
/// "for STRING "0000"".
const STRING_TIMES: [u8; 4] = *b"0000";

/// "T: "A" TEXT, "B" STRING."
#[derive(Clone, Copy, Debug, PartialEq, Eq)]
pub enum Kind {
    Text,
    String,
}

impl Kind {
    /// The type that this is not.
    pub fn other(self) -> Kind {
        match self {
            Kind::Text => Kind::String,
            Kind::String => Kind::Text,
        }
    }
}

/// A record whose parts are each good; its SIZE may still be 0000.
#[derive(Clone, Copy, Debug, PartialEq, Eq)]
pub struct Record {
    pub label: u8,
    pub kind: Kind,
    pub locked: bool,
    pub size: u16,
    pub start: u8,
    pub stop: u8,
}

impl Record {
    /// Reads a record, its hex digits by the rule given.
    pub fn parse(bytes: [u8; RECORD_LENGTH], rule: DigitRule) -> Option<Record> {
        let [f, t, p, s1, s2, s3, s4, q1, q2, q3, q4] = bytes;
        let label = label_of(f)?;
        let kind = kind_of(t)?;
        let locked = protection_of(p)?;
        let size = word_value([s1, s2, s3, s4], rule)?;
        let (start, stop) = times_of(kind, [q1, q2, q3, q4], rule)?;
        let record = Record {
            label,
            kind,
            locked,
            size,
            start,
            stop,
        };
        string_size_is_good(&record).then_some(record)
    }

    /// The eleven bytes of the record.
    pub fn to_bytes(self) -> [u8; RECORD_LENGTH] {
        let t = match self.kind {
            Kind::Text => TEXT_CODE,
            Kind::String => STRING_CODE,
        };
        let p = if self.locked { LOCKED } else { UNLOCKED };
        let [s1, s2, s3, s4] = word_digits(self.size);
        let [q1, q2] = byte_digits(self.start);
        let [q3, q4] = byte_digits(self.stop);
        [self.label, t, p, s1, s2, s3, s4, q1, q2, q3, q4]
    }

    /// The bytes of content.
    pub fn content_length(self) -> usize {
        usize::from(self.size)
    }

    /// The bytes of the record and of its content.
    pub fn whole_length(self) -> usize {
        RECORD_LENGTH + self.content_length()
    }
}

/// "F: 20H to 7EH except "0" and "?"."
fn label_of(byte: u8) -> Option<u8> {
    match byte {
        b'0' | b'?' => None,
        0x20..=0x7E => Some(byte),
        _ => None,
    }
}

/// "T: "A" TEXT, "B" STRING."
fn kind_of(byte: u8) -> Option<Kind> {
    match byte {
        TEXT_CODE => Some(Kind::Text),
        STRING_CODE => Some(Kind::String),
        _ => None,
    }
}

/// "P: "U" or "L"", for both types.
fn protection_of(byte: u8) -> Option<bool> {
    match byte {
        UNLOCKED => Some(false),
        LOCKED => Some(true),
        _ => None,
    }
}

/// "a STRING's is 1 to 125."
fn string_size_is_good(record: &Record) -> bool {
    match record.kind {
        Kind::Text => true,
        Kind::String => (1..=LONGEST_STRING).contains(&record.size),
    }
}

/// "QQQQ: for TEXT a start code 00 to 8F, FD, FE or FF and a stop code 00 to
/// 8F; for STRING "0000"."
fn times_of(kind: Kind, digits: [u8; 4], rule: DigitRule) -> Option<(u8, u8)> {
    match kind {
        Kind::String => (digits == STRING_TIMES).then_some((0, 0)),
        Kind::Text => {
            let [a, b, c, d] = digits;
            let start = byte_value([a, b], rule)?;
            let stop = byte_value([c, d], rule)?;
            (is_start(start) && is_stop(stop)).then_some((start, stop))
        }
    }
}

fn is_start(code: u8) -> bool {
    code <= LAST_TIME_CODE || code >= FIRST_NAMED_CODE
}

fn is_stop(code: u8) -> bool {
    code <= LAST_TIME_CODE
}

/// "Labels are distinct", whatever the two types.
pub fn labels_are_distinct(records: &[Record]) -> bool {
    records
        .iter()
        .enumerate()
        .all(|(place, record)| records[..place].iter().all(|r| r.label != record.label))
}
