//! The arguments of a case as they stand in a stream. "A number is one byte. A
//! string is its length in two bytes, most significant first, and then that many
//! bytes (0 to 65,535)." "A number of two bytes has its most significant byte first;
//! a signed one is in two's complement."

use crate::board::index::{Index, LABELS};
use crate::board::settings::{Settings, FIELDS};
use crate::board::Board;
use crate::dates::Date;

/// An argument: how it is put into a stream and how it is taken from one.
pub trait Part: Sized {
    fn put(&self, bytes: &mut Vec<u8>);

    /// None where the stream ends inside it, or where it is of another length.
    fn take(stream: &mut &[u8]) -> Option<Self>;
}

/// The next bytes of a stream.
fn take_bytes<const N: usize>(stream: &mut &[u8]) -> Option<[u8; N]> {
    let (bytes, rest) = stream.split_first_chunk()?;
    *stream = rest;
    Some(*bytes)
}

macro_rules! numbers {
    ($($number:ty)*) => {$(
        impl Part for $number {
            fn put(&self, bytes: &mut Vec<u8>) {
                bytes.extend(self.to_be_bytes());
            }

            fn take(stream: &mut &[u8]) -> Option<$number> {
                Some(<$number>::from_be_bytes(take_bytes(stream)?))
            }
        }
    )*};
}

numbers! { u8 i8 u16 i16 }

/// A string. A longer one than a stream can hold is cut.
impl Part for Vec<u8> {
    fn put(&self, bytes: &mut Vec<u8>) {
        let length = u16::try_from(self.len()).unwrap_or(u16::MAX);
        length.put(bytes);
        bytes.extend(self.iter().take(usize::from(length)));
    }

    fn take(stream: &mut &[u8]) -> Option<Vec<u8>> {
        let length = usize::from(u16::take(stream)?);
        let (string, rest) = stream.split_at_checked(length)?;
        *stream = rest;
        Some(string.to_vec())
    }
}

impl Part for Date {
    fn put(&self, bytes: &mut Vec<u8>) {
        self.year.put(bytes);
        bytes.extend([self.month, self.day]);
    }

    fn take(stream: &mut &[u8]) -> Option<Date> {
        Some(Date {
            year: u16::take(stream)?,
            month: u8::take(stream)?,
            day: u8::take(stream)?,
        })
    }
}

/// "the places of the labels 20H to 7EH, two bytes each, FFFFH where there is none".
impl Part for Index {
    fn put(&self, bytes: &mut Vec<u8>) {
        for entry in self.entries {
            entry.put(bytes);
        }
    }

    fn take(stream: &mut &[u8]) -> Option<Index> {
        let mut entries = [0; LABELS];
        for entry in &mut entries {
            *entry = u16::take(stream)?;
        }
        Some(Index { entries })
    }
}

/// One string: "one byte a field", and behind them what the requests appended.
impl Part for Settings {
    fn put(&self, bytes: &mut Vec<u8>) {
        let mut string = self.fields().to_vec();
        self.unused.put(&mut string);
        self.index.put(&mut string);
        self.offset.put(&mut string);
        self.register.put(&mut string);
        string.put(bytes);
    }

    fn take(stream: &mut &[u8]) -> Option<Settings> {
        let string = Vec::take(stream)?;
        let rest = &mut string.as_slice();
        let fields = take_bytes::<FIELDS>(rest)?;
        let settings = Settings {
            unused: u16::take(rest)?,
            index: Index::take(rest)?,
            offset: i8::take(rest)?,
            register: u8::take(rest)?,
            ..Settings::default()
        };
        rest.is_empty().then(|| settings.with_fields(fields))
    }
}

impl Part for Board {
    fn put(&self, bytes: &mut Vec<u8>) {
        self.settings.put(bytes);
        self.memory.put(bytes);
    }

    fn take(stream: &mut &[u8]) -> Option<Board> {
        Some(Board {
            settings: Settings::take(stream)?,
            memory: Vec::take(stream)?,
        })
    }
}
