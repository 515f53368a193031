//! What a frame shows: lead, escapes, small letters and the bytes beside them, pairs,
//! blocks and lengths, and how it reaches a board or misses it.

use second::board::settings::Settings;
use second::bytes::{ANY_DIGIT, COMMA, STX};
use second::frame::body::{has_read, is_read};
use second::frame::forms::needs_escape;
use second::frame::header::{addressed, fit_of, pairs, starts, Fit};
use second::frame::lead::after_lead;
use second::frame::reading::read;
use second::frame::translation::{translate, Translated};
use second::hex::byte_digits;

use crate::{name, Facts};

/// The bytes beside the hex digits.
pub const BESIDE: &[u8] = b"/:@G`g";

/// The header and the blocks' data of a frame that reads well.
pub fn read_parts(raw: &[u8]) -> Option<(Vec<u8>, Vec<Vec<u8>>)> {
    let translated = translate(raw).ok()?;
    let frame = read(&translated).ok()?;
    let data = frame.blocks.iter().map(|block| block.data.to_vec());
    Some((frame.header.to_vec(), data.collect()))
}

/// The header of a frame with a good lead, whether or not it reads well.
fn header_of(translated: &Translated<'_>) -> Vec<u8> {
    let after = after_lead(&translated.bytes, translated.way).unwrap_or_default();
    let header = after.split(|&byte| byte == STX).next();
    header.unwrap_or_default().to_vec()
}

/// Whether a header is that of a first start.
pub fn is_start(header: &[u8]) -> bool {
    pairs(header).is_ok_and(|pairs| starts(&pairs))
}

/// Whether a frame, good or not, has the header of a first start.
pub fn is_start_frame(raw: &[u8]) -> bool {
    translate(raw).is_ok_and(|translated| is_start(&header_of(&translated)))
}

/// Whether the last block of a frame that reads well is a read.
pub fn ends_with_read(raw: &[u8]) -> bool {
    translate(raw).is_ok_and(|bytes| read(&bytes).is_ok_and(|frame| has_read(&frame.blocks)))
}

/// How long a result of these data is before escapes.
pub fn result_length(form: u8, header: &[u8], data: &[impl AsRef<[u8]>]) -> usize {
    let bytes: usize = data.iter().map(|data| 2 + data.as_ref().len()).sum();
    let around = match form {
        1 => 6 + data.len(),
        3 => 2 + 5 * data.len(),
        _ => 7 + 5 * data.len(),
    };
    header.len() + bytes + around
}

/// How long the result of joining these frames is; 0 where one does not read well.
pub fn length_of(form: u8, frames: &[&Vec<u8>]) -> usize {
    let parts: Option<Vec<_>> = frames.iter().map(|raw| read_parts(raw)).collect();
    parts.map_or(0, |parts| {
        let data: Vec<&Vec<u8>> = parts.iter().flat_map(|(_, data)| data).collect();
        result_length(form, &parts[0].0, &data)
    })
}

/// What the bytes of a frame show. It reads well, 0 here, where its call comes to what
/// it is to be made into.
pub fn look_at(facts: &mut Facts, call: char, raw: &[u8], number: u8) {
    let number = if number > 9 { 0 } else { number };
    let is_printable = raw.first() == Some(&b'_');
    let way = if is_printable {
        "printable"
    } else {
        "standard"
    };
    let escapes: Vec<&[u8]> = raw.split(|&byte| byte == b'_').skip(1).collect();
    shown! { facts;
        raw.is_empty() => "{call} empty {number}";
        raw.len() > 8_000 => "{way} {} {number}", raw.len();
        is_printable => "translated {} {number}", (raw.len() + 2).saturating_sub(2 * escapes.len() + 2);
        number == 4 && !b"\0\x01_".contains(&raw[0]) => "first byte 4";
        number == 5 && raw.ends_with(b"_") => "cut escape 1";
        number == 5 && raw.len() > 2 && raw[raw.len() - 2] == b'_' => "cut escape 2";
    }
    for byte in escapes.iter().flat_map(|escape| escape.iter().take(2)) {
        shown! { facts; number == 5 && BESIDE.contains(byte) => "beside escape {}", name(*byte); }
    }
    for byte in raw
        .iter()
        .filter(|&&byte| number == 5 && needs_escape(byte))
    {
        shown! { facts; true => "unprintable {byte:02X}"; }
    }
    let Ok(translated) = translate(raw) else {
        return;
    };
    let bytes = translated.bytes.as_ref();
    let zeros = bytes.iter().take_while(|&&byte| byte == 0).count();
    let ones = bytes[zeros..].iter().take_while(|&&byte| byte == 1).count();
    let after = after_lead(bytes, translated.way).unwrap_or_default();
    let header = header_of(&translated);
    let sums = bytes
        .split(|&byte| byte == 3)
        .skip(1)
        .filter(|sum| sum.len() > 4);
    let digits: Vec<u8> = sums.flat_map(|sum| sum[..4].to_vec()).collect();
    let starts = bytes.windows(2).filter(|pair| pair[0] == STX);
    look_at_header(facts, call, &header, number);
    shown! { facts;
        true => "{way} lead {} {} {number}", zeros.min(6), ones.min(7);
        number == 6 && !after.contains(&STX) => "no STX 6";
        true => "blocks {} {number}", starts.clone().count();
        number == 7 && bytes.last() != Some(&4) => "no EOT 7";
        number == 0 && digits.iter().any(is_small) => "{call} small sum";
    }
    for byte in digits
        .iter()
        .filter(|byte| number == 7 && BESIDE.contains(byte))
    {
        shown! { facts; true => "beside sum {}", name(*byte); }
    }
    for pair in starts {
        shown! { facts;
            number == 7 && pair[1] < 5 => "command {} 7", pair[1];
            number == 8 && is_read(pair[1]) => "{} too soon", name(pair[1]);
        }
    }
    for (place, digits) in escapes
        .iter()
        .enumerate()
        .filter(|_| number == 0 && is_printable)
    {
        let value = u8::from_str_radix(&String::from_utf8_lossy(&digits[..2]), 16).unwrap_or(0);
        shown! { facts;
            digits[..2].iter().any(is_small) => "{call} small escape";
            place > 0 && !needs_escape(value) => "{call} needless escape";
        }
    }
    for (place, byte) in header
        .iter()
        .enumerate()
        .filter(|(place, _)| number == 0 && place % 4 > 0)
    {
        shown! { facts; is_small(byte) => "{call} small address {}", place % 4; }
    }
}

pub fn is_small(byte: &u8) -> bool {
    (b'a'..=b'f').contains(byte)
}

/// A header that reads well, or what is wrong with it.
pub fn look_at_header(facts: &mut Facts, call: char, header: &[u8], number: u8) {
    let parts: Vec<&[u8]> = header.split(|&byte| byte == COMMA).collect();
    let is_bad = pairs(header).is_err() && number == 6;
    shown! { facts;
        true => "pairs {} {number}", parts.len();
        is_bad && header.is_empty() => "no pair 6";
        is_bad && header.ends_with(b",") => "comma at the end 6";
    }
    if is_bad && parts.len() <= 16 && parts.iter().all(|part| pairs(part).is_ok()) {
        let edges = [parts.first(), parts.last()].map(|part| is_start(part.unwrap_or(&header)));
        shown! { facts;
            true => "{call} start beside 6";
            true => "start beside {} {}", edges[0], edges[1];
        }
    }
    for part in parts.iter().filter(|part| is_bad && part.len() == 3) {
        shown! { facts; fit_of(part[0]).is_none() => "header type 6"; }
        for byte in part[1..].iter().filter(|byte| BESIDE.contains(byte)) {
            shown! { facts; true => "beside address {}", name(*byte); }
        }
    }
}

/// By which pair the board is reached, or how one that comes near it misses: "=" is the
/// board's digit, "x" another.
pub fn look_at_pairs(facts: &mut Facts, raw: &[u8], settings: &Settings, number: u8) {
    let Some((header, _)) = read_parts(raw) else {
        return;
    };
    let (own, address) = (settings.own_type, settings.address);
    let pairs = pairs(&header).unwrap_or_default();
    for (pair, text) in pairs.iter().zip(header.chunks(4)) {
        let digits = pair.address.iter().zip(byte_digits(address));
        let way: String = match pair.address {
            [b'0', b'0'] => "00".into(),
            _ => digits.map(|(one, digit)| way_of(*one, digit)).collect(),
        };
        let fits = addressed(&[*pair], own, address) && (number == 0 || number == 28);
        let is_start = pair.fit == Fit::FirstStart;
        let is_mine = is_start || [Fit::EveryBoard, Fit::OwnType(own)].contains(&pair.fit);
        let who = if is_start { "start " } else { "" };
        let is_other = number == 9 && !is_mine && way == "00";
        shown! { facts;
            fits => "{who}reached by {way}";
            fits && text[0] == own => "reached type {own:02X}";
            fits && text[0] != own => "reached by type {}", name(text[0]);
            fits && text[1..].iter().any(is_small) => "{who}reached by small";
            number == 9 && is_mine && way.starts_with('x') => "{who}missed high digit";
            number == 9 && is_mine && way.ends_with('x') => "{who}missed low digit";
            number == 9 && is_mine && address == 0 => "{who}missed at 00 by {way}";
            is_other => "missed type";
            is_other && pair.fit == Fit::NoBoard => "missed type {}", name(text[0]);
            is_other && text[0].eq_ignore_ascii_case(&own) => "missed type by case";
        }
    }
}

fn way_of(character: u8, digit: u8) -> char {
    match character {
        ANY_DIGIT => '?',
        _ if character == digit => '=',
        _ => 'x',
    }
}
