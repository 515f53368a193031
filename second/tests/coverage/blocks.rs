//! What the blocks of a frame show that are run one by one on a copy of the board: each
//! command and function with each number, lists and messages at their limits, files that
//! are found and that are not, and the register.

use std::collections::BTreeSet;

use second::board::commands::run_block;
use second::board::files::{content_of, find, walk};
use second::board::first_start::first_start;
use second::board::record::{Kind, Record, RECORD_LENGTH};
use second::board::run::Ran;
use second::board::Board;
use second::dates::Date;
use second::frame::body::Block;
use second::frame::header::starts;
use second::frame::reading::read;
use second::frame::sum::checksum;
use second::frame::translation::translate;
use second::hex::frame_digit;

use crate::boards::of_record;
use crate::dates::of_date;
use crate::frames::BESIDE;
use crate::{name, Facts};

pub fn look_at(facts: &mut Facts, board: &Board, raw: &[u8], ran: &Ran) {
    let Ok(translated) = translate(raw) else {
        return;
    };
    let Ok(frame) = read(&translated) else { return };
    let mut now = board.clone();
    let is_start = starts(&frame.pairs) && ran.done + ran.refused > 0;
    if is_start {
        first_start(&mut now).expect("a frame that ran");
    }
    let board = &now.clone();
    let mut labels = BTreeSet::new();
    for block in frame.blocks.iter().take(ran.done + ran.refused) {
        let before = now.clone();
        let number = run_block(&mut now, block).err().unwrap_or(0);
        look_at_block(facts, block, number, &before);
        if is_start && before.settings.index == board.settings.index {
            shown! { facts;
                number == 0 => "start {} done", which(block);
                number > 0 => "start block {number}";
            }
        }
        labels.insert(block.data.first());
        match (block.command, block.data) {
            (b'E', [b'$', list @ ..]) => look_at_list(facts, list, number, before.memory.len()),
            (b'A' | b'B' | b'G' | b'H', [label, rest @ ..]) => {
                look_at_file(
                    facts,
                    (block.command, *label),
                    rest.len(),
                    number,
                    [board, &before],
                );
            }
            _ => {}
        }
    }
    shown! { facts;
        ran.done == 64 => "64 blocks done";
        ran.done == 64 && labels.len() == 64 => "each of 64 files written";
        ran.done > 2 && ran.refused == 0 && ran.reply_length > 0 => "all done and a reply";
        ran.reply_length == 33 => "reply without data";
        ran.first_place > 1 && ran.done > 0 => "first refused later {}", ran.first_number;
    }
}

/// The command of a block and the function's label.
fn which(block: &Block<'_>) -> String {
    let label = block
        .data
        .first()
        .filter(|_| b"EF".contains(&block.command));
    let label = label.map(|&label| name(label));
    format!("{}{}", name(block.command), label.unwrap_or_default())
}

fn look_at_block(facts: &mut Facts, block: &Block<'_>, number: u8, before: &Board) {
    let (command, data) = (block.command, block.data);
    let which = which(block);
    let text: String = data.iter().skip(1).map(|&byte| name(byte)).collect();
    let register = before.settings.register;
    let (right, capitals) = (
        checksum(command, data),
        checksum(command, &data.to_ascii_uppercase()),
    );
    let sum = block.given_sum.unwrap_or(right);
    shown! { facts;
        true => "block {which} {number}";
        command == b'E' && data.len() < 9 => "{which} {text} {number}";
        number == 0 && before.settings.files >= 60 => "{which} of many";
        number == 20 => "sum off {}", sum.wrapping_sub(right) as i16;
        number == 20 && sum == capitals => "sum of capitals";
        number == 0 && sum != capitals && block.given_sum.is_some() => "sum of small letters";
        number == 20 && !b"ABEFGH".contains(&command) => "order 20 21";
        number == 20 && data.is_empty() => "order 20 22";
        matches!(number, 20..=27) && register & 0x30 == 0 => "{number} on a clear register";
        which == "E$" && number == 0 && before.settings.offset != 0 => "offset kept";
    }
    for bit in 0..6 {
        let is_set = register >> bit & 1;
        shown! { facts; matches!(which.as_str(), "E4" | "F*") && number == 0 => "{which} bit {bit} is {is_set}"; }
    }
    if let ("E7", [_, one, two]) = (which.as_str(), data) {
        let small = [one, two].map(|digit| (b'a'..=b'f').contains(digit));
        let beside = [one, two].into_iter().find(|digit| BESIDE.contains(digit));
        shown! { facts;
            number == 0 && small[0] => "small E7 0";
            number == 0 && small[1] => "small E7 1";
            number == 22 && beside.is_some() => "beside E7 {}", name(*beside.unwrap_or(&0));
        }
    }
    let digits: Vec<u8> = data
        .iter()
        .skip(1)
        .map(|&byte| byte.wrapping_sub(b'0'))
        .collect();
    if let ("E;", [a, b, c, d, e, f], 0 | 22) = (which.as_str(), &digits[..], number) {
        let [month, day, year] =
            [(a, b), (c, d), (e, f)].map(|(ten, one)| ten.wrapping_mul(10).wrapping_add(*one));
        let year = 2_000 + u16::from(year);
        of_date(facts, "set", Date { year, month, day });
    }
}

fn look_at_list(facts: &mut Facts, list: &[u8], number: u8, room: usize) {
    let pieces = list.chunks(RECORD_LENGTH);
    let count = pieces.len();
    let parse = |piece: &[u8]| Record::parse(piece.try_into().ok()?, frame_digit);
    let records: Vec<Record> = pieces.clone().filter_map(parse).collect();
    let labels: BTreeSet<u8> = records.iter().map(|record| record.label).collect();
    let used: usize = records.iter().map(|record| record.whole_length()).sum();
    let off = used as i64 - room as i64;
    let is_rest = records.last().is_some_and(|last| last.size == 0);
    let is_twice = labels.len() < records.len();
    let has_small = |part: std::ops::Range<usize>| {
        pieces
            .clone()
            .any(|piece| piece[part.clone()].iter().any(u8::is_ascii_lowercase))
    };
    shown! { facts;
        matches!(number, 0 | 27) => "list off {off} rest {is_rest} {number}";
        matches!(number, 0 | 25 | 26) && records.len() == count => "list of {count} {number}";
        number == 25 && records.iter().rev().skip(1).any(|record| record.size == 0) => "rest not last";
        number == 25 => "list and {} 25", list.len() % RECORD_LENGTH;
        number == 25 && is_twice => "order 25 26";
        number == 25 && off > 0 => "order 25 27";
        number == 26 && off > 0 => "order 26 27";
        number == 0 && has_small(3..7) => "small SIZE";
        number == 0 && has_small(7..11) => "small QQQQ";
        number == 0 && labels.iter().any(|label| label.is_ascii_alphabetic() && labels.contains(&(label ^ 0x20))) => "labels in both cases";
    }
    for piece in pieces
        .clone()
        .filter(|piece| number == 25 && piece.len() == RECORD_LENGTH)
    {
        of_record(facts, "25", piece, frame_digit);
    }
    for record in records.iter().filter(|_| number == 0) {
        shown! { facts;
            record.kind == Kind::String => "list STRING {}", record.size;
            record.kind == Kind::Text => "list start {:02X}", record.start;
            record.kind == Kind::Text => "list stop {:02X}", record.stop;
        }
    }
}

/// A block that names a file, on the board as it began and as it is now.
fn look_at_file(
    facts: &mut Facts,
    (command, label): (u8, u8),
    length: usize,
    number: u8,
    [former, now]: [&Board; 2],
) {
    let kind = if b"AB".contains(&command) {
        Kind::Text
    } else {
        Kind::String
    };
    let is_read = b"BH".contains(&command);
    let command = name(command);
    let found =
        |board: &Board, label, kind| find(&board.memory, &board.settings.index, label, kind);
    let (then, file) = (found(former, label, kind), found(now, label, kind));
    let is_twin = label.is_ascii_alphabetic() && found(now, label ^ 0x20, kind).is_some();
    let why = match label {
        b'0' | b'?' => "none",
        ..0x20 => "below",
        0x7F.. => "above",
        _ if found(now, label, kind.other()).is_some() => "type",
        _ if then.is_some() => "gone",
        _ if is_twin => "case",
        _ => "free",
    };
    shown! { facts;
        number == 23 => "{} 23 {why}", if is_read { "read" } else { "write" };
        number == 22 && file.is_none() => "order 22 23";
    }
    let Some(file) = file else { return };
    let (files, _) = walk(&now.memory, now.settings.files).unwrap_or_default();
    let place = match [files.first(), files.last()].map(|edge| edge == Some(&file)) {
        [true, _] => "first",
        [_, true] => "last",
        _ => "middle",
    };
    let content = content_of(&now.memory, &file).len();
    let more = length as i64 - file.record.content_length() as i64;
    shown! { facts;
        number == 0 && files.len() > 59 => "{command} of many {place}";
        number == 0 => "{command} label {label:02X}";
        number == 0 && then.is_none() => "{command} new";
        number == 0 && then.is_some_and(|then| then.place != file.place) => "{command} moved";
        number == 0 && is_twin => "{command} beside the other case";
        number == 0 || number == 24 => "{command} message {more:+} {number}";
        number == 0 && length == 0 && content > 0 => "{command} emptied";
        number == 0 && 0 < length && length < content => "{command} shortened";
        number == 0 && content == file.record.content_length() => "{command} full";
        number == 0 && content == 0 => "{command} empty";
    }
}
