//! Frames as they are sent: leads, headers that reach a board and that miss it, sums,
//! escapes; and frames damaged in one thing.

use super::blocks::Block;
use super::boards::own_types;
use super::dice::Dice;
use super::letters::{beside, cased_type, letter, other_case, spoil};
use crate::board::settings::Settings;
use crate::bytes::{COMMA, EOT, NUL, SOH, STX, UNDERSCORE};
use crate::frame::body::MOST_BLOCKS;
use crate::frame::forms::needs_escape;
use crate::frame::header::{is_own_type, pairs};
use crate::frame::translation::{Way, MOST_PRINTABLE, MOST_TRANSLATED};
use crate::hex::byte_digits;

/// "1 to 16 pairs joined by commas".
const MOST_PAIRS: usize = 16;

/// A frame in its parts.
pub struct Frame {
    way: Way,
    lead: Vec<u8>,
    pub header: Vec<u8>,
    pub blocks: Vec<Block>,
}

impl Frame {
    pub fn new(dice: &mut Dice, header: Vec<u8>, blocks: Vec<Block>) -> Frame {
        let way = dice.turn("way", &[Way::Standard, Way::Standard, Way::Printable]);
        let lead = lead(dice, way);
        Frame {
            way,
            lead,
            header,
            blocks,
        }
    }

    /// The frame's bytes before escapes, part by part, each with its name.
    fn parts(&self) -> Vec<(&'static str, Vec<u8>)> {
        let mut parts = vec![("", self.lead.clone()), ("", self.header.clone())];
        for block in &self.blocks {
            let (etx, sum) = block.end.split_at(block.end.len().min(1));
            parts.push(("", vec![STX, block.command]));
            parts.push(("data", block.data.clone()));
            parts.push(("ETX", etx.to_vec()));
            parts.push(("sum", sum.to_vec()));
        }
        parts.push(("EOT", vec![EOT]));
        parts
    }

    fn length(&self) -> usize {
        self.parts().iter().map(|(_, part)| part.len()).sum()
    }

    /// The frame as it is sent: with no needless escape, with some, or all escapes.
    pub fn sent(&self, dice: &mut Dice) -> Vec<u8> {
        let needless = dice.turn("needless escapes", &[0, 0, 10, 100]);
        self.as_sent(dice, self.parts(), needless)
    }

    fn as_sent(&self, dice: &mut Dice, parts: Vec<(&str, Vec<u8>)>, needless: usize) -> Vec<u8> {
        let mut bytes = Vec::new();
        for byte in parts.into_iter().flat_map(|(_, part)| part) {
            let is_escaped = bytes.is_empty() || needs_escape(byte) || dice.chance(needless);
            if self.way == Way::Printable && is_escaped {
                let mut digits = byte_digits(byte);
                letter(dice, &mut digits);
                bytes.extend([UNDERSCORE, digits[0], digits[1]]);
            } else {
                bytes.push(byte);
            }
        }
        bytes
    }

    /// Lengthens the last data so much; a sum that was there is right again.
    pub fn lengthen(&mut self, dice: &mut Dice, more: usize) {
        if let Some(last) = self.blocks.last_mut() {
            last.data.extend(vec![dice.one_of(b"az~"); more]);
            if last.has_sum() {
                last.sum_up(dice, 0);
            }
        }
    }

    /// Puts so many blocks in the place of its own, but for the last.
    pub fn repeat_blocks(&mut self, count: usize) {
        let last = self.blocks.pop();
        self.blocks = vec![Block::new(b'A', b"A"); count - 1];
        self.blocks.extend(last);
    }

    fn send_as(&mut self, dice: &mut Dice, way: Way) {
        self.way = way;
        self.lead = lead(dice, way);
    }

    pub fn any_block(&mut self, dice: &mut Dice) -> &mut Block {
        let place = dice.below(self.blocks.len());
        &mut self.blocks[place]
    }
}

/// "five or more NUL and then SOH, or six or more SOH". "Printable: any number of NUL,
/// none included, then SOH; or one or more SOH."
fn lead(dice: &mut Dice, way: Way) -> Vec<u8> {
    let more = dice.between(1, 9);
    let more = dice.turn("longer lead", &[0, 0, more]);
    let fewest = if way == Way::Standard { 5 } else { 0 };
    let filler = dice.turn("lead", &[NUL, SOH]);
    [vec![filler; fewest + more], vec![SOH]].concat()
}

/// A lead that is too short, one without its SOH, and one with a SOH too many, which
/// is then the header's.
fn wrong_lead(dice: &mut Dice, way: Way) -> Vec<u8> {
    match way {
        Way::Standard => {
            dice.text("\0\0\0\0\x01|\x01\x01\x01\x01\x01|\0\x01|\0\0\0\0\0\0|\0\0\0\0\0\x01\x01")
        }
        Way::Printable => dice.text("|\0\0|A\x01|\0\x01\x01"),
    }
}

fn any_pair(dice: &mut Dice) -> [u8; 3] {
    let own = dice.turn("type of a pair", &own_types());
    let code = dice.one_of(&[b'0', 0x22, b'Z', b'!', b'?', own, own, own, own]);
    let [high, low] = [(); 2].map(|()| dice.one_of(b"0019ABCDEF??"));
    [code, high, low]
}

/// A pair of a type that fits no board.
fn no_pair(dice: &mut Dice) -> [u8; 3] {
    dice.turn("no pair", &[*b"000", *b"\"00"])
}

/// The header of this pair alone, among a few others or among 15, with its addresses
/// in capitals or in small letters.
fn among(dice: &mut Dice, pair: [u8; 3], other: fn(&mut Dice) -> [u8; 3]) -> Vec<u8> {
    let few = dice.between(2, 5);
    let count = dice.dealt("pairs", &[(8, 1), (2, few), (1, MOST_PAIRS)]);
    let mut pairs: Vec<[u8; 3]> = (1..count).map(|_| other(dice)).collect();
    pairs.insert(dice.below(count), pair);
    let mut header = pairs.join(&COMMA);
    reletter(dice, &mut header);
    header
}

/// Puts the header's addresses in capitals or in small letters.
pub fn reletter(dice: &mut Dice, header: &mut [u8]) {
    for pair in header.chunks_mut(4) {
        pair[1..].make_ascii_uppercase();
        letter(dice, &mut pair[1..]);
    }
}

/// Any header that reads well.
pub fn any_header(dice: &mut Dice) -> Vec<u8> {
    let pair = any_pair(dice);
    match dice.sort("header: 4 any, 1 start") {
        "start" => start_header(dice, [pair[1], pair[2]]),
        _ => among(dice, pair, any_pair),
    }
}

/// The header of a first start: type "z" as the sole pair.
pub fn start_header(dice: &mut Dice, address: [u8; 2]) -> Vec<u8> {
    let mut header = vec![b'z', address[0], address[1]];
    reletter(dice, &mut header);
    header
}

/// Type "z" beside another pair, or beside itself.
pub fn start_beside(dice: &mut Dice) -> Vec<u8> {
    let [mut start, mut other] = [(); 2].map(|()| any_pair(dice));
    start[0] = b'z';
    other[0] = dice.turn("beside a start", &[b'z', b'Z', other[0]]);
    let place = dice.turn("place of a start", &[[start, other], [other, start]]);
    let mut header = place.join(&COMMA);
    reletter(dice, &mut header);
    header
}

/// A header that does not read well: parted wrongly, of 17 pairs, with "z" beside other
/// pairs, or spoiled.
pub fn bad_header(dice: &mut Dice) -> Vec<u8> {
    let mut header = any_header(dice);
    let sort = dice.sort("bad header: 16 text, 16 start, 3 many, 8 spoiled, 16 digit");
    while pairs(&header).is_ok() {
        match sort {
            "text" => header = dice.text("||y00|Z00,|Z00,|,Z00|Z00,,Z00|Z00;Z00"),
            "start" => header = start_beside(dice),
            "many" => header = [any_pair(dice); MOST_PAIRS + 1].join(&COMMA),
            "digit" => {
                let mut digits = header.split_off(header.len() - 2);
                spoil(dice, sort, &mut digits);
                header.extend(digits);
            }
            _ => spoil(dice, "header", &mut header),
        }
    }
    header
}

/// A header that reaches the board or misses it, or starts it if it reaches it; for some
/// that miss the board gets another address or type. In the pairs "o" is the board's own
/// type, "c" that in the other case, "n" one beside it, "e" any that fits; "h" and "l" are
/// the digits of the address, "x" and "y" others.
pub fn header_for(
    dice: &mut Dice,
    settings: &mut Settings,
    is_missing: bool,
    is_start: bool,
) -> Vec<u8> {
    let mut pair = match (is_missing, settings.address) {
        (true, _) if is_start => dice.text("zxl|zx?|zx?|zhy|z?y|z0?|z0?|z?0|z?0|z??|z??|z01"),
        (true, _) => dice.text("000|\"00|n00|c00|c00|exl|ex?|ehy|e?y|e0?|e?0|e??|e01"),
        (false, 0) if is_start => b"z00".to_vec(),
        (false, 0) => dice.text("e00|o00"),
        (false, _) if is_start => dice.text("z00|zhl|zhl|zh?|z?l|z??"),
        (false, _) => dice.text("e00|ehl|ehl|eh?|e?l|e??|o00|ohl|ohl|oh?|o?l|o??"),
    };
    match (pair[0], &pair[1..]) {
        (b'c', _) => settings.own_type = cased_type(dice, "type on a board"),
        (_, b"xl" | b"x?" | b"hy" | b"?y") => settings.address = settings.address.max(0x11),
        (_, b"0?" | b"?0" | b"??" | b"01") if is_missing => settings.address = 0,
        _ => {}
    }
    let own = settings.own_type;
    let [high, low] = byte_digits(settings.address);
    let [other_high, other_low] = byte_digits(settings.address.wrapping_add(0x11));
    let beside = [own - 1, own + 1][usize::from(is_own_type(own + 1))];
    for byte in &mut pair {
        *byte = match byte {
            b'o' => own,
            b'c' => other_case(own),
            b'n' if is_own_type(beside) => beside,
            b'n' => b'a',
            b'e' => dice.turn("every type", &[b'Z', b'!', b'?', own]),
            b'h' => high,
            b'l' => low,
            b'x' => other_high,
            b'y' => other_low,
            _ => *byte,
        };
    }
    if is_start {
        return start_header(dice, [pair[1], pair[2]]);
    }
    let other = if is_missing { no_pair } else { any_pair };
    among(dice, [pair[0], pair[1], pair[2]], other)
}

/// A frame that is damaged in one thing, or in two.
pub fn damaged(dice: &mut Dice, mut frame: Frame) -> Vec<u8> {
    let sort = dice.sort(
        "damage of a frame: 7 empty, 3 first byte, 14 lead, 14 header, 2 no block, 6 command, \
         2 data, 2 ETX, 3 sum, 10 sum digit, 6 EOT, 5 many, 15 read, 4 read and sum digit, \
         2 header and sum digit, 12 escape, 4 cut escape, 15 unprintable, 10 length, \
         2 length and escape, 1 length and first byte, 3 byte, 1 cut",
    );
    match sort {
        "lead" => frame.lead = wrong_lead(dice, frame.way),
        "no block" => frame.blocks.clear(),
        "command" => frame.any_block(dice).command = dice.within(sort, 0..=4) as u8,
        "header" | "header and sum digit" => frame.header = bad_header(dice),
        "many" => frame.repeat_blocks(MOST_BLOCKS + dice.turn(sort, &[0, 1])),
        "read" | "read and sum digit" => {
            let mut read = Block::new(dice.turn(sort, b"BFHJN"), b"A");
            match dice.sort("sum of a read: 1 none, 1 right, 1 wrong") {
                "right" => read.sum_up(dice, 0),
                "wrong" => read.sum_up_wrong(dice),
                _ => {}
            }
            frame.blocks.insert(dice.below(frame.blocks.len()), read);
        }
        "escape" | "cut escape" | "unprintable" => frame.send_as(dice, Way::Printable),
        _ if sort.starts_with("length") => return at_a_length(dice, frame, sort),
        _ => {}
    }
    if sort.contains("sum") {
        frame.any_block(dice).sum_up(dice, 0);
    }
    let (_, name) = sort.split_once("and ").unwrap_or(("", sort));
    let name = name.trim_end_matches(" digit");
    let mut parts = frame.parts();
    let is_meant = |place: &usize| parts[*place].0 == name && !parts[*place].1.is_empty();
    let places: Vec<usize> = (0..parts.len()).filter(is_meant).collect();
    if let Some(place) = dice.any(&places) {
        spoil(dice, sort, &mut parts[place].1);
    }
    let needless = dice.turn("needless escapes", &[0, 0, 10, 100]);
    let bytes = frame.as_sent(dice, parts, needless);
    spoiled_raw(dice, sort, bytes)
}

/// What is damaged in the bytes as they are sent.
fn spoiled_raw(dice: &mut Dice, sort: &str, mut bytes: Vec<u8>) -> Vec<u8> {
    let place = dice.below(bytes.len());
    let any = dice.byte(0, 255);
    match sort {
        "empty" => bytes.clear(),
        "first byte" => bytes[0] = dice.turn(sort, &[0x02, 0x05, 0x5D, 0x5E, 0x60, 0x80]),
        "cut" => bytes.truncate(place),
        "byte" => match dice.sort("byte: 1 other, 1 more, 1 spoiled") {
            "other" => bytes[place] = any,
            "more" => bytes.insert(place, dice.one_of(&[any, STX, EOT])),
            _ => spoil(dice, sort, &mut bytes),
        },
        "unprintable" => {
            let unprintable = [0x00, 0x04, 0x0A, 0x0D, 0x1F, 0x7F, 0x80, 0xFF];
            bytes.insert(place.max(1), dice.turn(sort, &unprintable));
        }
        "cut escape" => bytes.extend(dice.text("_|_0")),
        "escape" => {
            let escapes = (0..bytes.len()).filter(|&place| bytes[place] == UNDERSCORE);
            let escape = dice.any(&escapes.collect::<Vec<_>>()).unwrap_or(0);
            bytes[escape + dice.turn(sort, &[1, 2])] = beside(dice, sort);
        }
        _ => {}
    }
    bytes
}

/// A frame as long as it may be or a byte longer, standard, translated or raw; with
/// another reason to refuse it now and then.
fn at_a_length(dice: &mut Dice, mut frame: Frame, sort: &str) -> Vec<u8> {
    let kind = match sort {
        "length and escape" => dice.sort("long escape: 2 translated, 1 raw"),
        _ => dice.sort("length: 1 standard, 1 translated, 1 raw"),
    };
    let more = dice.turn(kind, &[0, 0, 0, 1, 1, 1]);
    let (way, most, needless) = match kind {
        "standard" => (Way::Standard, MOST_TRANSLATED + more, 0),
        "translated" => (Way::Printable, MOST_TRANSLATED + more, 0),
        _ => (Way::Printable, MOST_PRINTABLE / 3, 100),
    };
    frame.send_as(dice, way);
    let missing = most.saturating_sub(frame.length());
    match frame.lead[0] == NUL && dice.chance(50) {
        true => frame.lead.splice(0..0, vec![NUL; missing]).for_each(drop),
        false => frame.lengthen(dice, missing),
    }
    let mut bytes = frame.as_sent(dice, frame.parts(), needless);
    bytes.extend(vec![b'A'; more * needless / 100]);
    match sort {
        "length and escape" => bytes.push(UNDERSCORE),
        "length and first byte" => bytes[0] = 0x5D,
        _ => {}
    }
    bytes
}
