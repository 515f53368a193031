//! Boards: sound ones from end to end of what document 01 allows, and boards that
//! would be sound but for one thing.

use super::dates::{self, Reach};
use super::dice::Dice;
use super::letters::{beside, other_case};
use crate::board::files::{walk, File, MOST_FILES};
use crate::board::first_start::LEAST_TO_START;
use crate::board::index::{Begin, Index, FIRST_LABEL, LAST_LABEL, NO_PLACE};
use crate::board::record::{Kind, Record, LAST_TIME_CODE, LONGEST_STRING, RECORD_LENGTH};
use crate::board::register::CLEARED;
use crate::board::settings::Settings;
use crate::board::soundness::{LEAST_MEMORY, MOST_MEMORY};
use crate::board::Board;
use crate::bytes::{LOWEST_DATA, NUL};
use crate::dates::{Date, FIRST_YEAR, LAST_YEAR};
use crate::frame::header::is_own_type;

/// A record and the one byte of content that a file has at least.
pub const SMALLEST_FILE: usize = RECORD_LENGTH + 1;
/// All bits of the register that are not fixed.
const FREE_BITS: u8 = CLEARED - 1;
/// The year of a board is one byte, from 2000.
const ON_BOARDS: Reach = Reach(&[LAST_YEAR + 1, FIRST_YEAR + 255], u8::MAX);

/// A board of these files, each its record, good or not, and its content: the number of
/// files, the unused amount and the index are right for them.
fn lay(mut settings: Settings, length: usize, files: &[Vec<u8>]) -> Board {
    let mut memory = Vec::new();
    let mut begins = Vec::new();
    for file in files {
        let (label, place) = (file[0], memory.len());
        begins.push(Begin { label, place });
        memory.extend_from_slice(file);
    }
    settings.files = files.len() as u8;
    settings.unused = length.saturating_sub(memory.len()) as u16;
    settings.index = Index::of(&begins);
    memory.resize(length, NUL);
    Board { settings, memory }
}

/// A sound board: most times a few files in a small memory.
pub fn sound(dice: &mut Dice) -> Board {
    let least = MOST_FILES * SMALLEST_FILE;
    let sort = dice.sort("board: 8 least, 28 full, 9 crowd, 1 long, 1 most, 118 small");
    let (length, count) = match sort {
        "least" => (LEAST_MEMORY, dice.turn(sort, &[0, 1, 2, 5])),
        "full" => (least + dice.below(60), MOST_FILES),
        "crowd" => (least + 12 + dice.below(80), dice.turn(sort, &[40, 63, 64])),
        "long" => (dice.between(400, 3_000), dice.between(1, 20)),
        "most" => (MOST_MEMORY, dice.turn(sort, &[0, MOST_FILES])),
        _ => return small_board(dice),
    };
    board_of(dice, length, count)
}

/// A sound board for a frame that starts it: memory on both sides of what the 26 files
/// take, much more or too little, with files of its own or without.
pub fn board_to_start(dice: &mut Dice) -> Board {
    let any = dice.between(LEAST_TO_START + 2, 2 * LEAST_TO_START);
    let sort = dice.sort("room to start: 6 just, 2 one short, 2 one left, 2 more, 2 few");
    let length = match sort {
        "just" => LEAST_TO_START,
        "one short" => LEAST_TO_START - 1,
        "one left" => LEAST_TO_START + 1,
        "more" => dice.turn(sort, &[any, any, any, any, any, any, MOST_MEMORY]),
        _ => return small_board(dice),
    };
    let count = dice.turn("files before a start", &[0, 1, 3, 26, MOST_FILES]);
    board_of(dice, length, count)
}

/// A sound board of a few files or of none in a small memory.
pub fn small_board(dice: &mut Dice) -> Board {
    let length = dice.between(LEAST_MEMORY, 250);
    let count = dice.turn("few files", &[0, 1, 2, 2, 3, 4, 6]);
    board_of(dice, length, count)
}

/// A sound board of so many files, the last of which may touch memory's end.
fn board_of(dice: &mut Dice, length: usize, count: usize) -> Board {
    let mut records = records(dice, length, count);
    let left = length - used(&records);
    if let Some(last) = records.last_mut().filter(|last| last.kind == Kind::Text) {
        last.size += dice.turn("rest", &[0, 0, left as u16]);
    }
    let files: Vec<Vec<u8>> = records.iter().map(|record| file(dice, record)).collect();
    lay(settings(dice), length, &files)
}

/// The file of this record, empty, full or filled in part.
fn file(dice: &mut Dice, record: &Record) -> Vec<u8> {
    let filled = dice.within("content", 0..=record.size.into()) as usize;
    let mut file = [&record.to_bytes()[..], &message(dice, filled)].concat();
    file.resize(record.whole_length(), NUL);
    file
}

/// Bytes that a message can have: text, any from 05H, or those at the edges of what
/// a printable frame sends without an escape.
pub fn message(dice: &mut Dice, length: usize) -> Vec<u8> {
    const EDGES: [u8; 9] = [5, 0x1F, 0x20, 0x5E, 0x5F, 0x60, 0x7E, 0x7F, 0xFF];
    match dice.sort("message: 6 text, 1 any, 1 edges") {
        "text" => dice.bytes(length, b' ', b'z'),
        "any" => dice.bytes(length, LOWEST_DATA, 0xFF),
        _ => (0..length).map(|_| dice.one_of(&EDGES)).collect(),
    }
}

fn settings(dice: &mut Dice) -> Settings {
    let any = dice.byte(0, 255);
    let addresses = [0, 0, 0x01, 0x0F, 0x10, 0x1F, 0xFA, 0xFF, any, any];
    let mut settings = Settings {
        hour: dice.within("hour", 0..=23) as u8,
        minute: dice.within("minute", 0..=59) as u8,
        format: dice.turn("format", b"SM"),
        speaker: dice.turn("speaker", &[0, 1]),
        address: dice.turn("address", &addresses),
        own_type: dice.turn("own type", &own_types()),
        offset: dice.within("offset", -9..=9) as i8,
        register: register(dice),
        ..Settings::default()
    };
    set_date(&mut settings, dates::real(dice, "date of a board"));
    settings
}

fn set_date(settings: &mut Settings, date: Date) {
    (settings.month, settings.day) = (date.month, date.day);
    settings.year = (date.year - FIRST_YEAR) as u8;
}

pub fn own_types() -> Vec<u8> {
    (0..=255).filter(|&code| is_own_type(code)).collect()
}

/// The bytes just beside the own types, and the types of headers alone.
pub fn no_types() -> Vec<u8> {
    let is_near = |code: u8| is_own_type(code.wrapping_add(1)) || is_own_type(code - 1);
    let is_meant = |code: &u8| is_near(*code) || b"!?Zz".contains(code);
    (1..=255)
        .filter(|code| is_meant(code) && !is_own_type(*code))
        .collect()
}

/// A register that a board can hold: cleared, with one bit, without one, with all.
pub fn register(dice: &mut Dice) -> u8 {
    let one = 1 << dice.below(6);
    let any = dice.byte(0, FREE_BITS);
    CLEARED | dice.turn("register", &[0, 0, one, FREE_BITS ^ one, FREE_BITS, any])
}

/// A register whose fixed bits are not as they must be.
pub fn wrong_register(dice: &mut Dice) -> u8 {
    register(dice) & FREE_BITS | dice.turn("fixed bits", &[0x00, 0x80, 0xC0])
}

/// So many records with labels of their own, or as many as have room: of few the first
/// may take much, of many each takes at most its share.
pub fn records(dice: &mut Dice, room: usize, count: usize) -> Vec<Record> {
    let mut records: Vec<Record> = Vec::new();
    let count = count.min(room / SMALLEST_FILE);
    for to_come in (1..=count).rev() {
        let left = room - used(&records);
        let most = match count {
            0..=20 => left - SMALLEST_FILE * (to_come - 1),
            _ => left / to_come,
        };
        let record = record(dice, &records, most - RECORD_LENGTH);
        records.push(record);
    }
    records
}

/// What files of these records take.
pub fn used(records: &[Record]) -> usize {
    records.iter().map(|record| record.whole_length()).sum()
}

/// A record with a label of its own and at most so much content, at least 1.
fn record(dice: &mut Dice, others: &[Record], most: usize) -> Record {
    let time = dice.byte(0, LAST_TIME_CODE);
    let starts = [0, LAST_TIME_CODE, 0xFD, 0xFE, 0xFF, time];
    let is_text = dice.turn("type of a file", &[true, false]);
    let longest = [LONGEST_STRING, 2_000][usize::from(is_text)].into();
    let longest = dice.one_of(&[8, 20, longest, longest]).min(most);
    let text = Record {
        label: new_label(dice, others),
        kind: Kind::Text,
        locked: dice.chance(50),
        size: dice.within("size", 1..=longest as i32) as u16,
        start: dice.turn("start code", &starts),
        stop: dice.within("stop code", 0..=LAST_TIME_CODE.into()) as u8,
    };
    [as_string(text), text][usize::from(is_text)]
}

/// The record of a STRING of the same label; its SIZE may be too large for one.
pub fn as_string(mut record: Record) -> Record {
    record.kind = Kind::String;
    (record.start, record.stop) = (0, 0);
    record
}

/// A label of none of these, often the first or the last of all, a letter, or one that
/// is there in the other case.
pub fn new_label(dice: &mut Dice, others: &[Record]) -> u8 {
    let is_free = |label: &u8| others.iter().all(|record| record.label != *label);
    let mut free: Vec<u8> = (FIRST_LABEL..=LAST_LABEL).filter(is_free).collect();
    free.retain(|label| !b"0?".contains(label));
    let any = dice.any(&free).unwrap_or(b'A');
    let twin = others.last().map_or(any, |record| other_case(record.label));
    let letter = dice.byte(b'A', b'F');
    let label = dice.turn("label", &[FIRST_LABEL, LAST_LABEL, any, any, letter, twin]);
    [any, label][usize::from(free.contains(&label))]
}

/// A record that is wrong in one thing wherever it stands: its label, type or
/// protection, a byte beside the digits of SIZE or of QQQQ ("*"), a start or stop code,
/// or a STRING's SIZE or QQQQ.
pub fn bad_record(dice: &mut Dice, deck: &str) -> Vec<u8> {
    const BAD: &str = "0AU0001FF00|?AU0001FF00|\x1FAU0001FF00|\x7FAU0001FF00|\
        XaU0001FF00|XbU00010000|X@U0001FF00|XCU0001FF00|\
        XAu0001FF00|XBl00010000|XAT0001FF00|XAM0001FF00|\
        XAU*001FF00|XAU0*01FF00|XAU00*1FF00|XAU000*FF00|\
        XAU*001FF00|XAU0*01FF00|XAU00*1FF00|XAU000*FF00|\
        XAU0001*F00|XAU0001F*00|XAU0001FF*0|XAU0001FF0*|\
        XAU0001*F00|XAU0001F*00|XAU0001FF*0|XAU0001FF0*|\
        XAU00019000|XAU0001FC00|XAU00010090|XAU0001FF90|XAU0001FFFF|\
        XBU00000000|XBL007E0000|XBU01010000|XBU00010001|XBL00018000";
    let bad: Vec<&str> = BAD.split('|').collect();
    let mut record = dice.turn(deck, &bad).as_bytes().to_vec();
    if let Some(place) = record.iter().position(|&byte| byte == b'*') {
        record[place] = beside(dice, &format!("beside {}, {deck}", place / 7));
    }
    record
}

/// The board with a file whose record is wrong: as anywhere, with a hex digit in a small
/// letter, or with no SIZE.
fn with_bad_record(dice: &mut Dice, board: Board) -> Board {
    let mut record = match dice.sort("record: 5 anywhere, 1 in memory") {
        "anywhere" => bad_record(dice, "record on a board"),
        _ => dice.text("XAU000aFF00|XAU0001FF0b|XAU0000FF00"),
    };
    let size = String::from_utf8_lossy(&record[3..7]).into_owned();
    let size = usize::from_str_radix(&size, 16).unwrap_or(1);
    record.resize(RECORD_LENGTH + size, NUL);
    let other = dice.text("AAU0002FF00ok|SBL000300000K\0|~AL00010000\0");
    let files = dice
        .turn("place", &[[0, 1], [1, 0]])
        .map(|at| [&other, &record][at].clone());
    let length = board.memory.len().max(files.concat().len());
    lay(board.settings, length, &files)
}

/// A board that would be sound but for one thing.
pub fn damaged(dice: &mut Dice, board: Board) -> Board {
    let sort = dice.sort(
        "damage of a board: 3 hour, 3 minute, 22 date, 1 format, 3 speaker, 1 type, 5 offset, \
         4 register, 1 fewer, 1 more, 1 many files, 1 short memory, 1 long memory, 1 cut, \
         23 record, 8 label twice, 6 low content, 3 behind zeros, 5 behind files, 14 unused, \
         27 index, 1 byte",
    );
    let mut board = match sort {
        "many files" => board_of(dice, 65 * SMALLEST_FILE + 5, MOST_FILES + 1),
        "short memory" => board_of(dice, LEAST_MEMORY - 1, 2),
        "long memory" => board_of(dice, MOST_MEMORY + 1, 2),
        "record" => with_bad_record(dice, board),
        _ => board,
    };
    let Board { settings, memory } = &mut board;
    let (files, behind) = walk(memory, settings.files).unwrap_or_default();
    let begins: Vec<Begin> = files.iter().map(File::begin).collect();
    let last = memory.len() - 1;
    let content = dice.any(&files).map_or(last, |file| file.content.start);
    match sort {
        "hour" => settings.hour = dice.outside(sort, 0..=23, 0..=255) as u8,
        "minute" => settings.minute = dice.outside(sort, 0..=59, 0..=255) as u8,
        "date" => set_date(settings, dates::wrong(dice, sort, ON_BOARDS)),
        "format" => settings.format = dice.turn(sort, b"smRTLN\0"),
        "speaker" => settings.speaker = dice.outside(sort, 0..=1, 0..=255) as u8,
        "type" => settings.own_type = dice.turn(sort, &no_types()),
        "offset" => settings.offset = dice.outside(sort, -9..=9, -128..=127) as i8,
        "register" => settings.register = wrong_register(dice),
        "fewer" => settings.files = settings.files.wrapping_sub(1),
        "more" => settings.files += 1,
        "cut" => memory.truncate(dice.below(last)),
        "low content" => memory[content] = dice.within(sort, 1..=4) as u8,
        "behind zeros" => (memory[content], memory[(content + 1).min(last)]) = (NUL, b'A'),
        "behind files" => memory[dice.turn(sort, &[behind.min(last), last])] = 0xFF,
        "byte" => memory[dice.below(last)] = dice.byte(0, 255),
        "unused" => {
            let (right, all) = (i32::from(settings.unused), last as i32 + 1);
            let less = all - right;
            let off = dice.turn(sort, &[1, -1, -1, 11, -11, -11, -right, -right, less]);
            settings.unused = (right + if off == 0 { 1 } else { off }) as u16;
        }
        "label twice" if begins.len() > 1 => {
            let (one, other) = (begins[0], begins[dice.between(1, begins.len() - 1)]);
            let places = [one.place, other.place, other.place + 1, NO_PLACE.into()];
            let entry = dice.turn(sort, &places) as u16;
            memory[other.place] = one.label;
            let index = settings.index.with(other.label, NO_PLACE);
            settings.index = index.with(one.label, entry);
        }
        "index" => settings.index = wrong_index(dice, settings.index, last as u16 + 1, &begins),
        _ => {}
    }
    board
}

/// An index that is not true of the files: an entry wrong, missing or stray, all zero as
/// 10 and 11 answer, each at the label beside, two swapped, or all moved.
fn wrong_index(dice: &mut Dice, right: Index, end: u16, begins: &[Begin]) -> Index {
    loop {
        let label = dice.byte(FIRST_LABEL, LAST_LABEL);
        let label = dice.turn("stray label", &[b'0', b'?', b' ', b'~', label]);
        let one = dice.any(begins).unwrap_or(Begin { label, place: 0 });
        let other = dice.any(begins).unwrap_or(one);
        let (place, far) = (one.place as u16, other.place as u16);
        let off = dice.turn("off", &[1, 0xFFFF, 0xFFFF, 0xFFFF, 11, 11]);
        let stray = dice.turn("stray", &[place, place, 0, end, end - 1, NO_PLACE - 1]);
        let mut index = right;
        let sort = dice.sort(
            "index: 9 near, 2 missing, 2 other, 8 stray, 1 zero, 2 shifted, 4 swapped, 1 moved",
        );
        match sort {
            "near" => index = right.with(one.label, place.wrapping_add(off)),
            "missing" => index = right.with(one.label, NO_PLACE),
            "other" => index = right.with(one.label, far),
            "stray" => index = right.with(label, stray),
            "zero" => index = Index::default(),
            "shifted" => index.entries.rotate_left(dice.turn("shift", &[1, 94])),
            "swapped" => index = right.with(one.label, far).with(other.label, place),
            _ => index = right.with(one.label, place + 1).with(other.label, far + 1),
        }
        if index != right {
            return index;
        }
    }
}
