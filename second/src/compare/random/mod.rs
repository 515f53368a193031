//! Random cases, the same from the same seed everywhere. Each is drawn as a good case
//! by one function; to a share of them one damage is then done from a deck of damages,
//! now and then two, so that the order of the numbers is met.

mod blocks;
mod boards;
mod dates;
mod dice;
mod frames;
mod letters;

use std::iter;

use self::blocks::{blocks, to_each_file, Block};
use self::boards::{board_to_start, damaged, own_types, small_board, sound};
use self::dice::Dice;
use self::frames::Frame;
use super::answer::Given;
use super::stream::Case;
use crate::board::first_start::first_start;
use crate::board::run::REPLY_MARGIN;
use crate::board::soundness::LEAST_MEMORY;
use crate::board::Board;
use crate::frame::body::{is_read, MOST_BLOCKS};
use crate::frame::translation::{MOST_PRINTABLE, MOST_TRANSLATED};

/// How often each call is made in 734 cases.
const CALLS: &str = "call: 32 N, 333 R, 56 W, 60 F, 94 J, 62 D, 36 Y, 31 B, 17 T, 13 P";
/// What is damaged in the cases of a call. Sorts that stand twice come in more of the
/// cases that have two damages.
const RUN: &str = "damage of a run: 82 board, 2 reply, 18 header, 26 frame";
const WRITE: &str = "damage of a write: 2 form, 10 header, 6 command, 6 data, 9 long";
const REFORM: &str =
    "damage of a re-forming: 2 form, 5 second, 2 second sum, 1 beside, 1 long alone";
const JOIN: &str = "damage of a joining: 2 form, 20 first, 9 second, 8 second, 3 first sum, \
    3 second sum, 3 header, 2 header, 2 read, 2 read, 2 read, 2 blocks, 2 blocks, 6 start, \
    1 beside, 1 long";

/// Cases without end.
pub fn random_cases(seed: u64) -> impl Iterator<Item = Case> {
    let mut dice = Dice::new(seed);
    iter::repeat_with(move || any_case(&mut dice))
}

fn any_case(dice: &mut Dice) -> Case {
    dice.scope = "";
    let call = dice.sort(CALLS);
    dice.scope = call;
    match call {
        "N" => fresh_case(dice),
        "R" => run_case(dice),
        "W" => write_case(dice),
        "F" => reform_case(dice),
        "J" => join_case(dice),
        "D" => dates::renewal_case(dice),
        "Y" => dates::weekday_case(dice),
        "B" => dates::days_case(dice),
        "T" => temperature_case(dice),
        _ => port_case(dice),
    }
}

/// A buffer before a call: one byte over and over.
fn filler(dice: &mut Dice, length: usize) -> Vec<u8> {
    let any = dice.byte(0, 255);
    vec![dice.turn("filler", &[0x00, 0xAA, 0xFF, any]); length]
}

/// A fresh board of each type and of memory at both ends.
fn fresh_case(dice: &mut Dice) -> Case {
    let sort =
        dice.sort("fresh: 26 good, 1 63, 1 64, 1 32768, 1 32769, 1 few, 3 type, 1 type and few");
    let own_type = match sort.starts_with("type") {
        true => dice.turn("no type", &boards::no_types()),
        false => dice.turn("type", &own_types()),
    };
    let length = match sort {
        "few" | "type and few" => dice.below(LEAST_MEMORY),
        _ => sort.parse().unwrap_or(dice.between(LEAST_MEMORY, 150)),
    };
    let memory = filler(dice, length);
    Case::Fresh { own_type, memory }
}

/// A run of a frame that reaches a sound board and is done in great part, some behind a
/// first start; or the board, the reply buffer, the header or the frame is damaged.
fn run_case(dice: &mut Dice) -> Case {
    let hits = dice.damages(8, 1, RUN);
    let is_hit = |part| hits.contains(&part);
    let sort = match hits.is_empty() {
        true => dice.sort("good run: 1 start, 13 good run"),
        false => dice.sort("damaged run: 2 damaged start, 5 damaged run"),
    };
    dice.scope = sort;
    let is_start = sort.ends_with("start");
    let mut board = match sort {
        "start" => board_to_start(dice),
        "good run" => sound(dice),
        "damaged start" if is_hit("header") && dice.chance(30) => board_to_start(dice),
        _ => small_board(dice),
    };
    let header = frames::header_for(dice, &mut board.settings, is_hit("header"), is_start);
    let mut started = board.clone();
    if is_start {
        // The blocks are for the 26 files, or for those that stay where there is no room.
        let _ = first_start(&mut started);
    }
    let blocks = run_blocks(dice, &started, hits.is_empty());
    let frame = Frame::new(dice, header, blocks);
    let frame = sent(dice, frame, is_hit("frame"));
    if is_hit("board") {
        board = damaged(dice, board);
    }
    let least = board.memory.len() + REPLY_MARGIN;
    let length = match is_hit("reply") {
        true => least - dice.turn("short reply", &[1, 1, 1, 2, REPLY_MARGIN]),
        false => least + dice.turn("reply", &[0, 0, 0, 1, 20]),
    };
    let reply = filler(dice, length);
    Case::Run {
        board,
        reply,
        frame,
    }
}

/// The blocks of a run: a few, or as many as there can be, most of them done; for a
/// board of many files now and then one for each.
fn run_blocks(dice: &mut Dice, board: &Board, is_good: bool) -> Vec<Block> {
    if board.settings.files >= 40 && dice.turn("each file", &[true, false, false, false]) {
        return to_each_file(dice, board);
    }
    let count = match dice.sort("blocks of a run: 3 1, 36 few, 6 many, 1 64") {
        _ if !is_good => dice.between(1, 3),
        "few" => dice.between(2, 7),
        "many" => dice.between(8, 20),
        count => count.parse().unwrap_or(MOST_BLOCKS),
    };
    let refused = dice.turn("share of refused blocks", &[0, 40, 80]);
    blocks(dice, board.clone(), count, refused)
}

/// The frame as it is sent, damaged where it is hit.
fn sent(dice: &mut Dice, frame: Frame, is_hit: bool) -> Vec<u8> {
    match is_hit {
        true => frames::damaged(dice, frame),
        false => frame.sent(dice),
    }
}

/// A frame for nobody in particular, its sums right: commands as for a board, and any.
fn any_frame(dice: &mut Dice, may_read: bool) -> Frame {
    let count = dice.turn("blocks of a frame", &[1, 1, 2, 2, 3, 4, 9]);
    let board = small_board(dice);
    let mut blocks = blocks(dice, board, count, 30);
    for block in &mut blocks {
        if !may_read && is_read(block.command) || dice.chance(5) {
            block.command = dice.one_of(b"AEGI\x05\xFF");
        }
        if block.has_sum() {
            block.sum_up(dice, 0);
        }
    }
    let header = frames::any_header(dice);
    Frame::new(dice, header, blocks)
}

fn form(dice: &mut Dice, is_wrong: bool) -> u8 {
    match is_wrong {
        true => dice.turn("no form", &[0, 4, 255]),
        false => dice.turn("form", &[1, 2, 3]),
    }
}

/// The case with an output buffer: just long enough, a byte short, of any length,
/// empty, or longer.
fn with_output(dice: &mut Dice, case: impl Fn(Vec<u8>) -> Case) -> Case {
    let needed = match case(vec![0; MOST_PRINTABLE]).answer().given {
        Given::Output { length, .. } => length,
        _ => 0,
    };
    let (any, more) = (dice.below(needed), dice.between(1, 20));
    let length = match dice.sort("output: 6 exact, 4 short, 1 any, 1 none, 6 longer") {
        "exact" => needed,
        "short" => needed.saturating_sub(1),
        "any" => any,
        "none" => 0,
        _ => needed + more,
    };
    let output = filler(dice, length);
    case(output)
}

/// How many bytes bring a result to 8,192 translated ones, or to one more.
fn missing_bytes(dice: &mut Dice, form: u8, header: &[u8], blocks: &[Block]) -> usize {
    let data: usize = blocks.iter().map(|block| block.data.len()).sum();
    let around = match form {
        1 => 6 + 3 * blocks.len(),
        3 => 2 + 7 * blocks.len(),
        _ => 7 + 7 * blocks.len(),
    };
    let most = MOST_TRANSLATED + dice.turn(&format!("long, {form}"), &[0, 0, 1, 1, 1, 90]);
    most.saturating_sub(header.len() + data + around)
}

fn write_case(dice: &mut Dice) -> Case {
    let hits = dice.damages(7, 4, WRITE);
    let form = form(dice, hits.contains(&"form"));
    let header = match hits.contains(&"header") {
        true => frames::bad_header(dice),
        false => frames::any_header(dice),
    };
    let mut block = any_frame(dice, true).blocks.swap_remove(0);
    let low = dice.turn("low byte", &[0, 2, 4, 4, 5, 5]);
    for hit in hits {
        match hit {
            "command" => block.command = low,
            "data" => block.data.insert(dice.below(block.data.len() + 1), low),
            "long" => {
                let more = missing_bytes(dice, form, &header, &[block.clone()]);
                block.data.extend(vec![dice.one_of(b"A~"); more]);
            }
            _ => {}
        }
    }
    let Block { command, data, .. } = block;
    with_output(dice, |output| {
        let (header, data) = (header.clone(), data.clone());
        Case::Write {
            form,
            header,
            command,
            data,
            output,
        }
    })
}

/// Re-forming takes the second frame alone.
fn reform_case(dice: &mut Dice) -> Case {
    let hits = dice.damages(8, 1, REFORM);
    let form = form(dice, hits.contains(&"form"));
    let [_, frame] = two_frames(dice, form, &hits);
    with_output(dice, |output| {
        let frame = frame.clone();
        Case::Reform {
            form,
            frame,
            output,
        }
    })
}

fn join_case(dice: &mut Dice) -> Case {
    let hits = dice.damages(7, 5, JOIN);
    let form = form(dice, hits.contains(&"form"));
    let [first, second] = two_frames(dice, form, &hits);
    with_output(dice, |output| {
        let (first, second) = (first.clone(), second.clone());
        Case::Join {
            form,
            first,
            second,
            output,
        }
    })
}

/// Two frames with one header, but for what is damaged.
fn two_frames(dice: &mut Dice, form: u8, hits: &[&str]) -> [Vec<u8>; 2] {
    let is_hit = |part| hits.contains(&part);
    let mut first = any_frame(dice, is_hit("read"));
    if is_hit("start") {
        first.header = frames::start_header(dice, [first.header[1], first.header[2]]);
    }
    let mut second = any_frame(dice, true);
    second.header = first.header.clone();
    frames::reletter(dice, &mut second.header);
    if is_hit("header") {
        part_headers(dice, &mut first.header, &mut second.header);
    }
    if is_hit("beside") {
        second.header = frames::start_beside(dice);
    }
    if is_hit("blocks") {
        let total = MOST_BLOCKS + dice.turn("blocks of two", &[0, 1, 1]);
        let some = dice.between(1, total - 1);
        first.repeat_blocks(some);
        second.repeat_blocks(total - some);
    }
    if is_hit("long") || is_hit("long alone") {
        for block in first.blocks.iter_mut().chain(&mut second.blocks) {
            block.end.truncate(1);
        }
        let mut all = second.blocks.clone();
        if is_hit("long") {
            all.extend_from_slice(&first.blocks);
        }
        let more = missing_bytes(dice, form, &first.header, &all);
        second.lengthen(dice, more);
    }
    for (part, frame) in [("first sum", &mut first), ("second sum", &mut second)] {
        if is_hit(part) {
            frame.any_block(dice).sum_up_wrong(dice);
        }
    }
    let first = sent(dice, first, is_hit("first"));
    [first, sent(dice, second, is_hit("second"))]
}

/// Two headers that were alike differ: in a type's case alone, of "z" too, in an address,
/// by a pair more, or in all.
fn part_headers(dice: &mut Dice, first: &mut Vec<u8>, second: &mut Vec<u8>) {
    let other = if first[1] == b'0' { b'1' } else { b'0' };
    match dice.sort("headers: 2 case, 4 start, 1 fit, 1 address, 1 pair, 1 all") {
        "start" => {
            first.truncate(3);
            second.truncate(3);
            (first[0], second[0]) = dice.turn("start", &[(b'z', b'Z'), (b'Z', b'z'), (b'z', b'z')]);
            if first[0] == second[0] {
                second[1] = other;
            }
        }
        "fit" => (first[0], second[0]) = (b'Z', b'!'),
        "case" => {
            first[0] = letters::cased_type(dice, "type of a header");
            second[0] = letters::other_case(first[0]);
        }
        "address" => second[1] = other,
        "pair" if second.len() < 60 => second.extend(b",Z00"),
        _ => *second = frames::any_header(dice),
    }
}

/// Offset and reading at the ends of their ranges and just outside.
fn temperature_case(dice: &mut Dice) -> Case {
    let offsets = [-128, -10, -9, -9, 0, 9, 9, 10, 127];
    let readings = [-32_768, -129, -128, -128, 0, 127, 127, 128, 32_767];
    let cards = offsets.map(|offset| readings.map(|reading| (offset, reading)));
    let (offset, reading) = dice.turn("degrees", &cards.concat());
    Case::Temperature { offset, reading }
}

/// Bits for a register whose fixed bits are right or wrong, in settings that need not
/// be those of a sound board.
fn port_case(dice: &mut Dice) -> Case {
    let registers = [0x40, 0x7F, 0x55, 0x6A, 0x00, 0x3F, 0x80, 0xC0];
    let bits = [0x00, 0x01, 0x02, 0x04, 0x07, 0x40, 0xF8, 0xFF];
    let cards = registers.map(|register| bits.map(|bits| (register, bits)));
    let (register, bits) = dice.turn("register and bits", &cards.concat());
    let mut settings = small_board(dice).settings;
    settings.hour = dice.turn("hour of the port", &[0, 23, 24, 255]);
    settings.register = register;
    Case::Port { settings, bits }
}
