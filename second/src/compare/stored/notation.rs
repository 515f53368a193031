//! How the tables of stored cases write bytes, frames and boards.
//!
//! Bytes: a character stands for itself, `\HH` for the byte of these two digits,
//! `{text*3}` for the text three times.
//!
//! A frame: a header and its blocks, each behind a `^`, as in `Z00^AAHELLO^E'S`. It
//! gets five NUL and SOH, ETX between blocks, and EOT. `[lead]` before the header
//! replaces NUL and SOH. A block that ends with `+` gets ETX and its checksum, one
//! that ends with `~` ETX alone; any other end, a wrong sum too, is written out
//! (`\0301FC`). `print:` before a frame sends it in the printable form without the
//! NULs, `escape:` with every byte as an escape, `small:` with every byte as an escape
//! in small letters. A text that begins with `_` is a printable frame as it stands,
//! one that begins with `=` any bytes as they stand.
//!
//! A board: words parted by spaces; what they do not name is as on a fresh board of
//! type "C". A number is memory's length; `+` begins a file, its record and behind a `=`
//! its content; `crowd=64*1` is 64 TEXT files of SIZE 1; `hour=24` sets a field,
//! `index:A=7` an entry, `at:30=x` bytes of memory, `length=63` cuts memory or makes it
//! longer. These come last, so that amount and index are right for the files but where
//! a word says otherwise.

use crate::board::index::{Index, NO_PLACE};
use crate::board::settings::Settings;
use crate::board::Board;
use crate::bytes::{EOT, ETX, NUL, SOH, STX};

/// What memory, a reply buffer and an output buffer hold before a call.
pub const FILLER: u8 = 0xAA;

/// The bytes of a text.
pub fn bytes(text: &str) -> Vec<u8> {
    let text = repeated(text);
    let mut bytes = Vec::new();
    let mut rest = text.as_bytes();
    while let Some((&first, after)) = rest.split_first() {
        rest = after;
        if first == b'\\' {
            let digits = std::str::from_utf8(&rest[..2]).expect("two digits");
            bytes.push(u8::from_str_radix(digits, 16).expect("two hex digits"));
            rest = &rest[2..];
        } else {
            bytes.push(first);
        }
    }
    bytes
}

/// The text with each `{part*count}` written out.
pub fn repeated(text: &str) -> String {
    let Some((before, rest)) = text.split_once('{') else {
        return text.to_string();
    };
    let (inner, after) = rest.split_once('}').expect("a closing brace");
    let (part, count) = inner.rsplit_once('*').expect("a count");
    let count = count.parse().expect("a count");
    [before, &part.repeat(count), &repeated(after)].concat()
}

/// The bytes of a frame.
pub fn frame(text: &str) -> Vec<u8> {
    let text = &repeated(text);
    if let Some(raw) = text.strip_prefix('=') {
        return bytes(raw);
    }
    if text.starts_with('_') || text.is_empty() {
        return bytes(text);
    }
    for (word, is_escaped) in [
        ("print:", needs_escape as fn(u8) -> bool),
        ("escape:", |_| true),
        ("small:", |_| true),
    ] {
        if let Some(sketch) = text.strip_prefix(word) {
            let sent = escaped(&sketched(sketch, &[SOH]), is_escaped);
            return match word {
                "small:" => sent.to_ascii_lowercase(),
                _ => sent,
            };
        }
    }
    sketched(text, &[NUL, NUL, NUL, NUL, NUL, SOH])
}

/// The translated bytes of a header and its blocks, behind this lead or their own.
fn sketched(text: &str, lead: &[u8]) -> Vec<u8> {
    let (lead, text) = match text.strip_prefix('[').and_then(|t| t.split_once(']')) {
        Some((own, rest)) => (bytes(own), rest),
        None => (lead.to_vec(), text),
    };
    let mut parts = text.split('^');
    let header = bytes(parts.next().unwrap_or_default());
    let blocks: Vec<Vec<u8>> = parts.map(block).collect();
    let mut frame = [lead, header].concat();
    for (place, block) in blocks.iter().enumerate() {
        if place > 0 && !blocks[place - 1].contains(&ETX) {
            frame.push(ETX);
        }
        frame.extend(block);
    }
    frame.push(EOT);
    frame
}

/// A block from its STX to its end.
fn block(text: &str) -> Vec<u8> {
    match (text.strip_suffix('+'), text.strip_suffix('~')) {
        (Some(block), _) => summed(&bytes(block)),
        (_, Some(block)) => [&[STX], bytes(block).as_slice(), &[ETX]].concat(),
        _ => [vec![STX], bytes(text)].concat(),
    }
}

/// STX, command and data, ETX and the sum of all these.
pub fn summed(block: &[u8]) -> Vec<u8> {
    let mut bytes = [&[STX], block, &[ETX]].concat();
    let sum: usize = bytes.iter().map(|&byte| usize::from(byte)).sum();
    bytes.extend(format!("{:04X}", sum % 0x1_0000).bytes());
    bytes
}

/// A reply: "20 NUL, SOH, "000", STX, the write code (A, G or E), label, data, ETX,
/// checksum, EOT."
pub fn reply(block: &str) -> Vec<u8> {
    let lead = [vec![NUL; 20], b"\x01000".to_vec()].concat();
    [lead, summed(&bytes(block)), vec![EOT]].concat()
}

fn escaped(translated: &[u8], is_escaped: fn(u8) -> bool) -> Vec<u8> {
    translated
        .iter()
        .flat_map(|&byte| match is_escaped(byte) {
            true => format!("_{byte:02X}").into_bytes(),
            false => vec![byte],
        })
        .collect()
}

/// "bytes below 20H, above 7EH and 5FH".
fn needs_escape(byte: u8) -> bool {
    !(0x20..0x7F).contains(&byte) || byte == b'_'
}

/// A number in decimal, or in hex behind `0x`.
pub fn number(text: &str) -> i64 {
    let value = match text.strip_prefix("0x") {
        Some(digits) => i64::from_str_radix(digits, 16),
        None => text.parse(),
    };
    value.unwrap_or_else(|_| panic!("no number: {text}"))
}

/// A board as its words have it.
pub fn board(text: &str) -> Board {
    let mut memory = Vec::new();
    let mut length = 0;
    let mut files = 0;
    let mut index = Index::empty();
    let mut changes = Vec::new();
    for word in text.split(' ').filter(|word| !word.is_empty()) {
        if let Some(file) = word.strip_prefix('+') {
            index = lay(&mut memory, index, &bytes(file));
            files += 1;
        } else if let Some(crowd) = word.strip_prefix("crowd=") {
            let (count, size) = crowd.split_once('*').expect("count and SIZE");
            for label in labels().take(number(count) as usize) {
                let record = [&[label], format!("AU{:04X}FF00", number(size)).as_bytes()].concat();
                index = lay(&mut memory, index, &record);
                files += 1;
            }
        } else if let Some((key, value)) = word.split_once('=') {
            changes.push((key, value));
        } else {
            length = number(word) as usize;
        }
    }
    let settings = Settings {
        month: 1,
        day: 1,
        format: b'S',
        own_type: b'C',
        files,
        unused: length.saturating_sub(memory.len()) as u16,
        index,
        register: 0x40,
        ..Settings::default()
    };
    memory.resize(length, NUL);
    let mut board = Board { settings, memory };
    for (key, value) in changes {
        set(&mut board, key, value);
    }
    board
}

/// "F: 20H to 7EH except "0" and "?"."
pub fn labels() -> impl Iterator<Item = u8> {
    (0x20..=0x7E).filter(|&label| label != b'0' && label != b'?')
}

/// Puts a file behind the others and its place into the index: eleven bytes of record
/// and, behind a "=", the content, with zeros after it up to SIZE.
fn lay(memory: &mut Vec<u8>, index: Index, file: &[u8]) -> Index {
    let (record, content) = file.split_at(11);
    let size = std::str::from_utf8(&record[3..7]).unwrap_or_default();
    let size = usize::from_str_radix(size, 16).unwrap_or_default();
    let place = memory.len();
    memory.extend_from_slice(record);
    memory.extend_from_slice(content.strip_prefix(b"=").unwrap_or_default());
    memory.resize(place + 11 + size, NUL);
    index.with(record[0], place as u16)
}

/// Gives one thing of a board another value.
pub fn set(board: &mut Board, key: &str, value: &str) {
    let settings = &mut board.settings;
    if let Some(label) = key.strip_prefix("index:") {
        let place = match value {
            "none" => NO_PLACE,
            _ => number(value) as u16,
        };
        settings.index = match label {
            "all" => Index {
                entries: [place; 95],
            },
            _ => settings.index.with(bytes(label)[0], place),
        };
    } else if let Some(place) = key.strip_prefix("at:") {
        let start = number(place) as usize;
        let new = bytes(value);
        board.memory[start..start + new.len()].copy_from_slice(&new);
    } else if key == "length" {
        board.memory.resize(number(value) as usize, NUL);
    } else if key == "format" {
        settings.format = bytes(value)[0];
    } else if key == "type" {
        settings.own_type = bytes(value)[0];
    } else if key == "offset" {
        settings.offset = number(value) as i8;
    } else if key == "unused" {
        settings.unused = number(value) as u16;
    } else {
        *byte_field(settings, key) = number(value) as u8;
    }
}

/// A field of the settings that is a number of one byte.
fn byte_field<'a>(settings: &'a mut Settings, name: &str) -> &'a mut u8 {
    match name {
        "hour" => &mut settings.hour,
        "minute" => &mut settings.minute,
        "month" => &mut settings.month,
        "day" => &mut settings.day,
        "year" => &mut settings.year,
        "speaker" => &mut settings.speaker,
        "address" => &mut settings.address,
        "files" => &mut settings.files,
        "register" => &mut settings.register,
        _ => panic!("no field {name}"),
    }
}
