//! Blocks: those that a board does, and those that it refuses with each number from
//! 20 to 27.

use super::boards::{as_string, bad_record, message, new_label, records, used, SMALLEST_FILE};
use super::dates::{self, Reach};
use super::dice::Dice;
use super::letters::{letter, other_case};
use crate::board::commands::run_block;
use crate::board::files::{walk, MOST_FILES};
use crate::board::index::{FIRST_LABEL, LAST_LABEL};
use crate::board::record::{Kind, Record, RECORD_LENGTH};
use crate::board::Board;
use crate::bytes::{
    CONFIGURATION, DATE, EOT, ETX, LOWEST_DATA, READ_SPECIAL, READ_STRING, READ_TEXT,
    SERIAL_ADDRESS, SPEAKER, STX, TEMPERATURE_OFFSET, TIME, TIME_FORMAT, WRITE_SPECIAL,
    WRITE_STRING, WRITE_TEXT,
};
use crate::frame::body;
use crate::frame::sum::checksum;
use crate::hex::{byte_digits, word_digits};

/// In decks of function labels: a file.
const FILE: u8 = b'.';

/// A block as it is sent: its end is nothing, ETX, or ETX and four digits.
#[derive(Clone)]
pub struct Block {
    pub command: u8,
    pub data: Vec<u8>,
    pub end: Vec<u8>,
}

impl Block {
    pub fn new(command: u8, data: &[u8]) -> Block {
        let (data, end) = (data.to_vec(), vec![ETX]);
        Block { command, data, end }
    }

    /// A command for a function or a file, with what stands behind the label.
    fn with(command: u8, label: u8, rest: &[u8]) -> Block {
        Block::new(command, &[&[label], rest].concat())
    }

    pub fn has_sum(&self) -> bool {
        self.end.len() > 1
    }

    /// Ends the block with its sum and so much more, in capitals or in small letters.
    pub fn sum_up(&mut self, dice: &mut Dice, more: u16) {
        let sum = checksum(self.command, &self.data).wrapping_add(more);
        let mut digits = word_digits(sum);
        letter(dice, &mut digits);
        self.end = [&[ETX], &digits[..]].concat();
    }

    /// Ends the block with a wrong sum: off by a little or by a byte, without STX or
    /// ETX, or of the capitals.
    pub fn sum_up_wrong(&mut self, dice: &mut Dice) {
        let right = checksum(self.command, &self.data);
        let capitals = checksum(self.command, &self.data.to_ascii_uppercase());
        let off = capitals.wrapping_sub(right);
        let wrong = [
            1, 0xFFFF, 0x0100, 0x8000, 0xFFFE, 0xFFFD, 0xFFFB, off, off, off,
        ];
        let more = dice.turn("wrong sum", &wrong);
        self.sum_up(dice, more.max(1));
    }
}

/// A read of a file, or a write to it.
fn of_file(is_read: bool, kind: Kind, label: u8, rest: &[u8]) -> Block {
    let command = match (is_read, kind) {
        (true, Kind::Text) => READ_TEXT,
        (true, Kind::String) => READ_STRING,
        (false, Kind::Text) => WRITE_TEXT,
        (false, Kind::String) => WRITE_STRING,
    };
    Block::with(command, label, rest)
}

fn records_of(board: &Board) -> Vec<Record> {
    let (files, _) = walk(&board.memory, board.settings.files).unwrap_or_default();
    files.iter().map(|file| file.record).collect()
}

/// Blocks for a board, of which so many of a hundred are refused. The last is a read
/// most times where it may be one; the first is often a list, but not after a start.
pub fn blocks(dice: &mut Dice, mut board: Board, count: usize, refused: usize) -> Vec<Block> {
    let former = records_of(&board);
    let lists = if dice.scope == "start" { 0 } else { 45 };
    let mut blocks = Vec::new();
    for place in 1..=count {
        let is_read = place == count && dice.chance(95);
        let number = match (dice.chance(refused), is_read) {
            (false, _) => "done",
            (_, true) => dice.sort("refused reads: 19 20, 18 21, 23 22, 26 23"),
            _ if dice.scope == "start" => {
                dice.sort("refused after a start: 2 20, 2 21, 2 22, 3 23, 3 24, 3 25, 3 26, 3 27")
            }
            _ => dice.sort("refused: 6 20, 7 21, 27 22, 8 23, 3 24, 14 25, 3 26, 4 27"),
        };
        let block = match place == 1 && count > 1 && dice.chance(lists) {
            true => Block::with(WRITE_SPECIAL, CONFIGURATION, &list(dice, &board, "done")),
            false => block(dice, &board, &former, number, is_read),
        };
        let sent = [&[STX, block.command], &block.data[..], &[EOT]].concat();
        if let (false, Ok(read)) = (block.has_sum(), body::blocks(&sent)) {
            // What is refused changes nothing that is looked at here.
            let _ = run_block(&mut board, &read[0]);
        }
        blocks.push(block);
    }
    give_ends(dice, &mut blocks);
    blocks
}

/// A message to each file of a board in memory's order, or a read at the end.
pub fn to_each_file(dice: &mut Dice, board: &Board) -> Vec<Block> {
    let mut blocks = Vec::new();
    for record in records_of(board) {
        blocks.push(to_file(dice, &record));
    }
    if dice.chance(50) {
        blocks.pop();
        blocks.push(done(dice, board, true, "done"));
    }
    give_ends(dice, &mut blocks);
    blocks
}

/// Gives all blocks without a sum theirs, or some, and lets the last end at EOT.
fn give_ends(dice: &mut Dice, blocks: &mut [Block]) {
    let share = dice.turn("sums", &[0, 50, 100]);
    for block in blocks.iter_mut().filter(|block| !block.has_sum()) {
        if dice.chance(share) {
            block.sum_up(dice, 0);
        }
    }
    if let Some(last) = blocks.last_mut().filter(|last| !last.has_sum()) {
        last.end.truncate(dice.turn("last end", &[0, 0, 1]));
    }
}

/// A block that the board does, or refuses with this number.
fn block(dice: &mut Dice, board: &Board, former: &[Record], number: &str, is_read: bool) -> Block {
    match number {
        "done" | "wrongly summed" => done(dice, board, is_read, number),
        "20" => {
            let number = dice.sort("under a wrong sum: 12 wrongly summed, 2 21, 2 22");
            let mut block = block(dice, board, former, number, is_read);
            block.sum_up_wrong(dice);
            block
        }
        "21" => unknown(dice, is_read),
        "22" if is_read => malformed_read(dice, board),
        "22" => malformed_write(dice),
        "23" => no_file(dice, board, former, is_read),
        "24" => too_long(dice, board),
        _ => Block::with(WRITE_SPECIAL, CONFIGURATION, &list(dice, board, number)),
    }
}

/// A read of a file or of a function; or a message to a file, a list, or a function that
/// is set. There is a deck for boards of 60 files and more.
fn done(dice: &mut Dice, board: &Board, is_read: bool, deck: &str) -> Block {
    let deck = format!("{deck} of {}", board.settings.files / 60);
    let label = match (is_read, deck.starts_with("done")) {
        (true, true) if dice.scope == "start" => dice.turn(&deck, b"$#*."),
        (true, true) => dice.turn(&deck, b" !';$#**........"),
        (true, false) => dice.turn(&deck, b" !';$#*...."),
        (false, true) if dice.scope == "start" => dice.turn(&deck, b" ;7T4$......"),
        (false, true) => dice.turn(&deck, b" !';7T4$$........"),
        (false, false) => dice.turn(&deck, b" !';7T4$.."),
    };
    match (label, any_record(dice, board)) {
        (FILE, Some(Record { kind, label, .. })) if is_read => of_file(true, kind, label, &[]),
        (FILE, Some(record)) => to_file(dice, &record),
        (FILE, None) if is_read => Block::new(READ_SPECIAL, &[CONFIGURATION]),
        _ if is_read => Block::new(READ_SPECIAL, &[label]),
        (FILE | CONFIGURATION, _) => {
            Block::with(WRITE_SPECIAL, CONFIGURATION, &list(dice, board, "done"))
        }
        _ => Block::with(WRITE_SPECIAL, label, &good_text(dice, label)),
    }
}

/// A file, the first or the last in half of the draws.
fn any_record(dice: &mut Dice, board: &Board) -> Option<Record> {
    let last = i32::from(board.settings.files) - 1;
    let place = dice.within("record", 0..=last.max(0)) as usize;
    records_of(board).get(place).copied()
}

/// A message that fits: empty, as long as SIZE, or some of it.
fn to_file(dice: &mut Dice, record: &Record) -> Block {
    let most = if record.size > 300 { 40 } else { record.size };
    let length = dice.within("length of a message", 0..=most.into()) as usize;
    of_file(false, record.kind, record.label, &message(dice, length))
}

/// The data of a function that is set.
fn good_text(dice: &mut Dice, label: u8) -> Vec<u8> {
    match label {
        TIME => {
            let hour = dice.within("hour to set", 0..=23);
            let minute = dice.within("minute to set", 0..=59);
            format!("{hour:02}{minute:02}").into()
        }
        SPEAKER => dice.text("00|FF"),
        TIME_FORMAT => dice.text("S|M"),
        DATE => {
            let date = dates::real(dice, "date to set");
            format!("{:02}{:02}{:02}", date.month, date.day, date.year % 100).into()
        }
        SERIAL_ADDRESS => {
            let mut digits = byte_digits(dice.byte(0, 255));
            letter(dice, &mut digits);
            digits.to_vec()
        }
        TEMPERATURE_OFFSET => {
            let digit = dice.within("degrees", 0..=9) as u8;
            vec![dice.turn("sign", b"+-"), b'0' + digit]
        }
        _ => Vec::new(),
    }
}

/// 21: a command or a function that is not listed, those of the other command and
/// letters in the other case among them.
fn unknown(dice: &mut Dice, is_read: bool) -> Block {
    let text = match is_read {
        true => dice.text("F7|F4|FT|F5|F&|F\"|Ft|F\x05|F\x7F|J|N"),
        false => dice.text("E#|E*|E5|E&|E2|E\"|E8|Et|E\x05|\x05|@|C|D|I|M|O|a|b|e|f|g|h|\x7F"),
    };
    Block::new(text[0], &[&text[1..], &dice.text("||0|AA")].concat())
}

/// 22 of a read: its label missing, or bytes behind it, whether or not there is such a
/// file.
fn malformed_read(dice: &mut Dice, board: &Board) -> Block {
    let rest = dice.text("A|0|  |\x7F|AAAAAAAAA");
    let text = dice.text("F |F!|F'|F;|F$|F#|F*|F|B|H|B0|H?|B.|H.");
    match (&text[..], any_record(dice, board)) {
        ([_, FILE], Some(record)) => of_file(true, record.kind, record.label, &rest),
        ([command], _) => Block::new(*command, &[]),
        _ => Block::with(text[0], text[1], &rest),
    }
}

/// 22 of a write: its label missing, or data that the function does not take: too
/// short, too long, none, a byte beside the digits, or a value just outside.
fn malformed_write(dice: &mut Dice) -> Block {
    let label = dice.turn("malformed write", b"AGE  !!!''';;;;;;;7777TTTTT4");
    let text = match label {
        b'A' | b'G' | b'E' => return Block::new(label, &[]),
        TIME => dice.text("2400|2360|2400|2360|0060|123|12345||12:0|1/00| 100|1 00"),
        SPEAKER => dice.text("ff|fF|Ff|0F|F0|01|0|000|FFF|"),
        TIME_FORMAT => dice.text("s|m|R|T|L|N||SS|M "),
        DATE if dice.turn("wrong date", &[false, true, true, true]) => {
            let date = dates::wrong(dice, "wrong date to set", Reach(&[], 99));
            format!("{:02}{:02}{:02}", date.month, date.day, date.year % 100).into()
        }
        DATE => dice.text("0101|01010|0101000||0:0100|01/100|01010:|010/00| 10100"),
        SERIAL_ADDRESS => dice.text("1|100|a||?0|@0|0@|G0|0G|`0|0`|g0|0g|/0|0/|:0|0:"),
        TEMPERATURE_OFFSET => dice.text("|+|5|+55| +5|+005|5+|*5|,5|.5|/5|+/|+:|+A|+a|+ "),
        _ => dice.text("0|4| |xx"),
    };
    Block::with(WRITE_SPECIAL, label, &text)
}

/// 23: the label of a file of the other type, of one in the other case, of one that a
/// list took away, of none, or a byte that is no label.
fn no_file(dice: &mut Dice, board: &Board, former: &[Record], is_read: bool) -> Block {
    let now = records_of(board);
    let has = |label: u8| now.iter().any(|record| record.label == label);
    let ways = [
        "type", "gone", "gone", "gone", "case", "case", "free", "byte", "byte",
    ];
    let cards = [Kind::Text, Kind::String].map(|kind| ways.map(|way| (kind, way)));
    let (kind, way) = dice.turn(
        ["to write", "to read"][usize::from(is_read)],
        &cards.concat(),
    );
    let mut meant = if way == "gone" {
        former.to_vec()
    } else {
        now.clone()
    };
    meant.retain(|Record { label, .. }| match way {
        "gone" => !has(*label),
        "case" => label.is_ascii_alphabetic() && !has(other_case(*label)),
        _ => true,
    });
    meant.retain(|record| (record.kind == kind) != (way == "type"));
    let no_labels = [
        b'0',
        b'?',
        LOWEST_DATA,
        FIRST_LABEL - 1,
        LAST_LABEL + 1,
        0xC1,
    ];
    let label = match (way, dice.any(&meant)) {
        ("byte", _) => dice.turn("no label", &no_labels),
        ("type" | "gone", Some(record)) => record.label,
        ("case", Some(record)) => other_case(record.label),
        _ => new_label(dice, &now),
    };
    of_file(is_read, kind, label, if is_read { &[] } else { b"abc" })
}

/// 24: a message longer than a file's SIZE, mostly by one byte; 23 where there is no
/// small file.
fn too_long(dice: &mut Dice, board: &Board) -> Block {
    let mut records = records_of(board);
    records.retain(|record| record.size <= 200);
    let more = dice.one_of(&[1, 1, 1, 2, 9]);
    match dice.any(&records) {
        Some(record) => {
            let message = message(dice, record.content_length() + more);
            of_file(false, record.kind, record.label, &message)
        }
        None => no_file(dice, board, &[], false),
    }
}

/// A "$" list that is done or refused with this number: with room left or none or too
/// little, the last TEXT taking the rest; a label twice; a record with one thing wrong, a
/// SIZE of 0000 not last, a length that is no multiple of eleven, 65 records. Refused ones
/// often would be for the numbers behind it too.
fn list(dice: &mut Dice, board: &Board, number: &str) -> Vec<u8> {
    let sort = match number {
        "done" => dice.sort("list: 5 any, 2 exact, 2 rest, 2 one left, 1 none"),
        "25" => dice.sort("bad list: 26 record, 3 early rest, 1 short, 1 long, 2 many"),
        "26" => "twice",
        _ => dice.sort("no room: 3 one over, 3 none left, 1 record over, 2 far over"),
    };
    let (few, most) = (dice.between(1, 3), MOST_FILES);
    let length = board.memory.len();
    let (count, room) = match length / SMALLEST_FILE {
        _ if sort == "many" => (most + 1, length.max((most + 1) * SMALLEST_FILE)),
        files if files < most => (few, length),
        _ => (dice.turn("length of a list", &[few, most]), length),
    };
    let mut list = records(dice, room, count);
    let now = records_of(board);
    if list.len() <= now.len() && dice.chance(40) {
        for (record, old) in list.iter_mut().zip(now.iter().rev()) {
            record.label = old.label;
        }
    }
    let is_twofold = dice.chance(20);
    let total = match sort {
        "exact" => room,
        "one left" => room - RECORD_LENGTH - 1,
        "none left" => room - RECORD_LENGTH,
        "one over" => room + 1,
        "record over" => room + RECORD_LENGTH,
        "far over" => dice.one_of(&[2 * room, 0x7FFF, 0x8000, 0xFFFF]),
        "record" | "twice" if is_twofold => room + 1,
        _ => 0,
    };
    let mut rest = Record { size: 0, ..list[0] };
    (rest.kind, rest.label) = (Kind::Text, new_label(dice, &list));
    if list.len() > 1 && (sort == "rest" || sort.ends_with("left")) {
        rest.label = list.pop().map_or(rest.label, |last| last.label);
    }
    if total > used(&list[1..]) + RECORD_LENGTH {
        list[0].kind = Kind::Text;
        list[0].size = (total - used(&list[1..]) - RECORD_LENGTH).min(0xFFFF) as u16;
    }
    match sort {
        "rest" | "one left" | "none left" => list.push(rest),
        "early rest" => list.insert(0, rest),
        "none" => list.clear(),
        "twice" | "record" if sort == "twice" || is_twofold => {
            list.truncate(MOST_FILES - 1);
            let mut again = list[dice.below(list.len())];
            again.size = 1;
            list.push(dice.turn("type of the second", &[again, as_string(again)]));
        }
        _ => {}
    }
    let mut bytes: Vec<u8> = list.iter().flat_map(|record| record.to_bytes()).collect();
    for record in bytes.chunks_mut(RECORD_LENGTH) {
        letter(dice, &mut record[3..]);
    }
    match sort {
        "record" => {
            let place = dice.between(0, list.len()) * RECORD_LENGTH;
            bytes.splice(place..place, bad_record(dice, "record of a list"));
        }
        "short" => bytes.truncate(bytes.len() - 1),
        "long" => bytes.push(b'0'),
        _ => {}
    }
    bytes
}
