//! "Settings travel as one record, handed in and handed back: time, date, time
//! format, speaker, serial address, own type, number of files." Request 3: "Keep
//! the unused amount in the settings record". Request 7 adds the index, request 9
//! the temperature offset and request 10 the serial error status register.

use super::index::Index;
use super::register::{after_port, after_refusal, CLEARED};
use crate::bytes::{MINUS, PLUS};
use crate::dates::{exists, FIRST_YEAR};
use crate::hex::{byte_value, frame_digit};
use crate::numbers::Number;

pub const STANDARD_FORMAT: u8 = b'S';
pub const MILITARY_FORMAT: u8 = b'M';
pub const SPEAKER_OFF: u8 = 0;
pub const SPEAKER_ON: u8 = 1;

/// The two texts of "!": ""00" speaker on, "FF" off".
const ON_TEXT: [u8; 2] = *b"00";
const OFF_TEXT: [u8; 2] = *b"FF";

/// How many fields document 01 gives the record, each of one byte: all but the
/// unused amount, the index, the temperature offset and the register.
pub const FIELDS: usize = 10;

/// The record, a number to a field, so that a field can be out of range.
#[derive(Clone, Copy, Debug, Default, PartialEq, Eq)]
pub struct Settings {
    pub hour: u8,
    pub minute: u8,
    pub month: u8,
    pub day: u8,
    pub year: u8,
    pub format: u8,
    pub speaker: u8,
    pub address: u8,
    pub own_type: u8,
    pub files: u8,
    pub unused: u16,
    pub index: Index,
    pub offset: i8,
    pub register: u8,
}

impl Settings {
    /// "A fresh board has 00:00, 01 01 00, format S, speaker off, address 00,
    /// no files", so that the index has no place, and so much unused memory.
    /// Request 9: "Fresh boards hold 0." Request 10: "A fresh register is a cleared
    /// one."
    pub fn fresh(own_type: u8, unused: u16) -> Settings {
        Settings {
            hour: 0,
            minute: 0,
            month: 1,
            day: 1,
            year: 0,
            format: STANDARD_FORMAT,
            speaker: SPEAKER_OFF,
            address: 0,
            own_type,
            files: 0,
            unused,
            index: Index::empty(),
            offset: 0,
            register: CLEARED,
        }
    }

    /// The fields of document 01 in the record's order.
    pub fn fields(self) -> [u8; FIELDS] {
        [
            self.hour,
            self.minute,
            self.month,
            self.day,
            self.year,
            self.format,
            self.speaker,
            self.address,
            self.own_type,
            self.files,
        ]
    }

    /// The record with these fields of document 01.
    pub fn with_fields(self, fields: [u8; FIELDS]) -> Settings {
        let [hour, minute, month, day, year, format, speaker, address, own_type, files] = fields;
        Settings {
            hour,
            minute,
            month,
            day,
            year,
            format,
            speaker,
            address,
            own_type,
            files,
            ..self
        }
    }

    /// "E: label 20H, four digits HhMm, 00:00 to 23:59."
    pub fn with_time(self, data: &[u8]) -> Option<Settings> {
        let [hour, minute] = decimal_pairs(data)?;
        is_time(hour, minute).then_some(Settings {
            hour,
            minute,
            ..self
        })
    }

    /// "";": six digits MmDdYy", of a date that exists. Request 1: "A date that
    /// breaks this is malformed."
    pub fn with_date(self, data: &[u8]) -> Option<Settings> {
        let [month, day, year] = decimal_pairs(data)?;
        is_date(month, day, year).then_some(Settings {
            month,
            day,
            year,
            ..self
        })
    }

    /// ""!": "00" speaker on, "FF" off." These are no hex digits: request 4 does not
    /// list them.
    pub fn with_speaker(self, data: &[u8]) -> Option<Settings> {
        let speaker = if data == ON_TEXT {
            SPEAKER_ON
        } else if data == OFF_TEXT {
            SPEAKER_OFF
        } else {
            return None;
        };
        Some(Settings { speaker, ..self })
    }

    /// ""'": "S" or "M"."
    pub fn with_format(self, data: &[u8]) -> Option<Settings> {
        match data {
            [format] if is_format(*format) => Some(Settings {
                format: *format,
                ..self
            }),
            _ => None,
        }
    }

    /// ""7": two hex digits, the serial address from the next frame on." Request 4
    /// takes small letters too.
    pub fn with_address(self, data: &[u8]) -> Option<Settings> {
        let digits = <[u8; 2]>::try_from(data).ok()?;
        let address = byte_value(digits, frame_digit)?;
        Some(Settings { address, ..self })
    }

    /// Request 9: "a sign and one digit 0 to 9, so -9 to 9, on every type, Solar
    /// too. "-0" and "+0" store the same offset."
    pub fn with_offset(self, data: &[u8]) -> Option<Settings> {
        let [sign, digit @ b'0'..=b'9'] = *data else {
            return None;
        };
        let degrees = (digit - b'0') as i8;
        let offset = match sign {
            PLUS => degrees,
            MINUS => -degrees,
            _ => return None,
        };
        Some(Settings { offset, ..self })
    }

    /// "used to clear the Serial Error Status Register to its default value of
    /// 40H".
    pub fn with_cleared_register(self) -> Settings {
        Settings {
            register: CLEARED,
            ..self
        }
    }

    /// The settings after a block was refused with this number. Request 10: "A
    /// refused block now changes nothing but this register".
    pub fn with_refusal(self, number: Number) -> Settings {
        Settings {
            register: after_refusal(self.register, number),
            ..self
        }
    }

    /// The settings after the port driver brought these bits.
    pub fn with_port_errors(self, bits: u8) -> Settings {
        Settings {
            register: after_port(self.register, bits),
            ..self
        }
    }

    /// The time in the layout "HhMm".
    pub fn time_text(self) -> Vec<u8> {
        decimal_text(&[self.hour, self.minute])
    }

    /// The date in the layout "MmDdYy".
    pub fn date_text(self) -> Vec<u8> {
        decimal_text(&[self.month, self.day, self.year])
    }

    /// The speaker in the layout of "!".
    pub fn speaker_text(self) -> Vec<u8> {
        match self.speaker {
            SPEAKER_ON => ON_TEXT.to_vec(),
            _ => OFF_TEXT.to_vec(),
        }
    }

    /// The time format in the layout of "'".
    pub fn format_text(self) -> Vec<u8> {
        vec![self.format]
    }

    /// The register as Table 14 has it: "one bitmapped ASCII character".
    pub fn register_text(self) -> Vec<u8> {
        vec![self.register]
    }
}

/// "00:00 to 23:59".
pub fn is_time(hour: u8, minute: u8) -> bool {
    hour <= 23 && minute <= 59
}

/// "Set Date and the soundness of a board are to use true month lengths".
pub fn is_date(month: u8, day: u8, year: u8) -> bool {
    exists(full_year(year), month, day)
}

/// "years being 2000 to 2099": 00 is the first of them. A field of the record
/// can also hold a year beyond 99, which lies behind the last.
pub fn full_year(year: u8) -> u16 {
    FIRST_YEAR + u16::from(year)
}

/// ""S" or "M"".
pub fn is_format(format: u8) -> bool {
    format == STANDARD_FORMAT || format == MILITARY_FORMAT
}

/// Speaker on or off.
pub fn is_speaker(speaker: u8) -> bool {
    speaker == SPEAKER_OFF || speaker == SPEAKER_ON
}

/// Exactly N numbers of two decimal digits each.
fn decimal_pairs<const N: usize>(data: &[u8]) -> Option<[u8; N]> {
    if data.len() != 2 * N {
        return None;
    }
    let mut values = [0; N];
    for (value, digits) in values.iter_mut().zip(data.chunks_exact(2)) {
        *value = decimal_value(digits)?;
    }
    Some(values)
}

/// The value of two decimal digits.
fn decimal_value(digits: &[u8]) -> Option<u8> {
    match digits {
        [tens @ b'0'..=b'9', ones @ b'0'..=b'9'] => Some((tens - b'0') * 10 + (ones - b'0')),
        _ => None,
    }
}

/// Numbers below 100 as two decimal digits each.
fn decimal_text(values: &[u8]) -> Vec<u8> {
    values
        .iter()
        .flat_map(|value| [b'0' + value / 10 % 10, b'0' + value % 10])
        .collect()
}
