//! What the board of a run shows: the ends of what is sound, and why it is not.

use second::board::files::{walk, File};
use second::board::index::{Begin, Index, NO_PLACE};
use second::board::record::{Record, RECORD_LENGTH};
use second::board::settings::{full_year, is_date, Settings};
use second::board::soundness::is_sound;
use second::board::Board;
use second::dates::Date;
use second::frame::header::is_own_type;
use second::hex::{memory_digit, DigitRule};

use crate::dates::of_date;
use crate::{name, Facts};

pub fn look_at(facts: &mut Facts, board: &Board, number: u8) {
    let of = board.settings;
    let (length, is_1) = (board.memory.len(), u8::from(number == 1));
    let (year, month, day) = (full_year(of.year), of.month, of.day);
    if is_date(month, day, of.year) != (number == 1) {
        of_date(facts, "board", Date { year, month, day });
    }
    shown! { facts;
        true => "hour {} {is_1}", of.hour;
        true => "minute {} {is_1}", of.minute;
        true => "format {} {is_1}", name(of.format);
        true => "speaker {} {is_1}", of.speaker;
        true => "offset {} {is_1}", of.offset;
        true => "register {:02b} {is_1}", of.register >> 6;
        true => "memory {length} {is_1}";
        true => "files {} {is_1}", of.files;
        number == 1 && !is_own_type(of.own_type) => "type 1";
        number != 1 && of.files == 0 => "memory {length} without files";
        number != 1 && of.files == 64 && length < 1_536 => "64 files in little memory";
        number != 1 && of.files == 64 && of.unused == 0 => "64 files to the end";
    }
    if number == 1 && is_boards(of) {
        match walk(&board.memory, of.files) {
            Some((files, end)) => look_at_files(facts, board, &files, end),
            None => look_at_record(facts, board),
        }
    }
}

/// Whether some memory makes a sound board of these settings, but for their files.
pub fn is_boards(mut settings: Settings) -> bool {
    (settings.files, settings.unused, settings.index) = (0, 64, Index::empty());
    is_sound(&Board {
        settings,
        memory: vec![0; 64],
    })
}

/// The records can be followed: unused amount, index, contents and what is behind.
fn look_at_files(facts: &mut Facts, board: &Board, files: &[File], end: usize) {
    let begins: Vec<Begin> = files.iter().map(File::begin).collect();
    let (memory, old) = (&board.memory, &board.settings.index);
    let length = memory.len();
    let more = i64::from(board.settings.unused) - (length - end) as i64;
    let right = Index::of(&begins);
    let wrong: Vec<u8> = (0x20..=0x7E)
        .filter(|&label| old.entry(label) != right.entry(label))
        .collect();
    let tail: Vec<usize> = (end..length).filter(|&place| memory[place] != 0).collect();
    let at_file = |place| begins.iter().any(|begin| Some(begin.place) == place);
    shown! { facts;
        more != 0 => "unused {more:+}";
        more != 0 && board.settings.unused == 0 => "unused nothing";
        more != 0 && usize::from(board.settings.unused) == length => "unused all";
        *old == Index::default() => "index zero";
        wrong.len() > 2 => "index many";
        wrong.len() == 2 && wrong.iter().all(|&label| at_file(old.place_of(label))) => "index two";
        tail == [end] => "behind files first";
        tail == [length.wrapping_sub(1)] => "behind files last";
    }
    if let [label] = wrong[..] {
        let (entry, place) = (old.entry(label).unwrap_or(0), right.place_of(label));
        shown! { facts;
            place.is_none() => "index stray {}", name(label);
            place.is_none() && begins.is_empty() => "index stray without files";
            place.is_none() && at_file(Some(entry.into())) => "index stray at a file";
            place.is_some() && entry == NO_PLACE => "index missing";
            place.is_some() && at_file(Some(entry.into())) => "index of another";
            place.is_some() => "index {:+}", i64::from(entry) - place.unwrap_or(0) as i64;
        }
    }
    for (at, one) in begins.iter().enumerate() {
        for other in begins[..at].iter().filter(|other| other.label == one.label) {
            let entry = old.place_of(one.label);
            let place = [other.place, one.place]
                .iter()
                .position(|&place| Some(place) == entry);
            shown! { facts; true => "label twice {place:?} {}", entry.is_some(); }
        }
    }
    for place in files.iter().flat_map(|file| file.content.clone()) {
        shown! { facts;
            (1..5).contains(&memory[place]) => "content {}", memory[place];
            memory[place] > 4 && memory[place - 1] == 0 => "behind zeros";
        }
    }
}

/// The records cannot be followed: what is wrong with the first that is not good.
fn look_at_record(facts: &mut Facts, board: &Board) {
    let good = (0..board.settings.files)
        .rev()
        .find_map(|count| walk(&board.memory, count));
    let (_, place) = good.unwrap_or_default();
    let record = board
        .memory
        .get(place..place + RECORD_LENGTH)
        .unwrap_or_default();
    of_record(facts, "1", record, memory_digit);
}

/// The byte of a record by which alone it is wrong, or by any of these.
pub fn of_record(facts: &mut Facts, number: &str, record: &[u8], rule: DigitRule) {
    const NAMES: [&str; 4] = ["label", "type", "protection", "digits"];
    let parse = |bytes: &[u8]| Record::parse(bytes.try_into().ok()?, rule);
    shown! { facts; parse(record).is_some_and(|record| record.size == 0) => "{number} no SIZE"; }
    for place in (0..record.len()).filter(|_| parse(record).is_none()) {
        let mut mended = record.to_vec();
        let mends = |byte: &u8| {
            mended[place] = *byte;
            parse(&mended).is_some()
        };
        if b"A1B0UD".iter().any(mends) {
            let part = NAMES[place.min(3)];
            shown! { facts;
                true => "{number} record byte {place}";
                true => "{number} record {part} {}", name(record[place]);
            }
        }
    }
}
