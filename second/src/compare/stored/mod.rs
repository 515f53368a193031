//! The stored cases: tables of calls with what comes back, in second/stored/.
//!
//! A row has columns parted by two or more spaces: the call byte, its arguments, and
//! behind `=>` the words of what is expected. `<a|b|c>` makes a row of each of its
//! parts, and several of these in one row go together. `let NAME  text` names a text,
//! which `@NAME` stands for below it. A line that begins with `#` is a heading.
//!
//! | call | arguments |
//! |---|---|
//! | N | own type, memory's length |
//! | R | board, frame; `short=1` and `long=1` among the board's words make the reply buffer shorter or longer than memory and 64 |
//! | W | form, header, command and data, length of the output buffer |
//! | F | form, frame, length of the output buffer |
//! | J | form, two frames, length of the output buffer |
//! | D | date (year-month-day), count |
//! | Y, B | one date, two dates |
//! | T | offset, reading |
//! | P | board, bits |
//!
//! An output buffer without a length is 64 bytes long, 8 where the call is refused. What
//! is expected is a number;
//! of a run 20 to 27 are the number of its only refused block; other words are told by
//! tests/rules/stored.rs, which holds every row to them.

pub mod notation;

use self::notation::{board, bytes, frame, number, FILLER};
use super::stream::Case;
use crate::board::run::REPLY_MARGIN;
use crate::dates::Date;

/// The tables, by their names.
const TABLES: [(&str, &str); 8] = [
    ("source", include_str!("../../../stored/source.txt")),
    ("frames", include_str!("../../../stored/frames.txt")),
    ("outputs", include_str!("../../../stored/outputs.txt")),
    ("boards", include_str!("../../../stored/boards.txt")),
    ("blocks", include_str!("../../../stored/blocks.txt")),
    ("lists", include_str!("../../../stored/lists.txt")),
    ("starts", include_str!("../../../stored/starts.txt")),
    ("reckoning", include_str!("../../../stored/reckoning.txt")),
];

/// A case, where it stands, and what is expected of it.
#[derive(Clone, Debug)]
pub struct Row {
    pub place: String,
    pub case: Case,
    pub expected: String,
}

/// All stored cases. A table that cannot be read ends the program.
pub fn stored() -> Vec<Row> {
    TABLES
        .iter()
        .flat_map(|(name, table)| rows(name, table))
        .collect()
}

/// The rows of one table.
pub fn rows(name: &str, table: &str) -> Vec<Row> {
    let mut names: Vec<(String, String)> = Vec::new();
    let mut rows = Vec::new();
    for (place, line) in (1..).zip(table.lines()) {
        if line.is_empty() || line.starts_with('#') {
            continue;
        }
        let text = with_names(&names, line);
        assert!(!text.contains('@'), "a name that is not there: {text}");
        match text.strip_prefix("let ") {
            Some(named) => {
                let (name, meaning) = named.split_once("  ").expect("a name and its text");
                names.push((format!("@{name}"), meaning.trim().to_string()));
            }
            None => {
                let place = format!("{name}.txt:{place}");
                rows.extend(one_by_one(&text).iter().map(|line| row(&place, line)));
            }
        }
    }
    rows
}

/// The text with each name replaced. Of two names that begin alike the longer one
/// comes later in the table.
fn with_names(names: &[(String, String)], text: &str) -> String {
    names
        .iter()
        .rev()
        .fold(text.to_string(), |text, (name, meaning)| {
            text.replace(name, meaning)
        })
}

/// A row without names and alternatives.
fn row(place: &str, line: &str) -> Row {
    let (call, expected) = line.split_once("=>").expect("what is expected");
    let expected = expected.trim();
    let room = if expected.starts_with("0 ") {
        "64"
    } else {
        "8"
    };
    Row {
        place: format!("{place}: {line}"),
        case: case(call, room),
        expected: expected.to_string(),
    }
}

/// A row of each part of its `<a|b|c>`, in step where there are several.
fn one_by_one(line: &str) -> Vec<String> {
    let count = line.split_once('<').map_or(1, |(_, rest)| {
        rest.split('>')
            .next()
            .unwrap_or_default()
            .split('|')
            .count()
    });
    (0..count).map(|turn| chosen(line, turn, count)).collect()
}

/// The line with the part of this turn in the place of all so many.
fn chosen(line: &str, turn: usize, count: usize) -> String {
    let Some((before, rest)) = line.split_once('<') else {
        return line.to_string();
    };
    let (parts, after) = rest.split_once('>').expect("the end of the parts");
    let parts: Vec<&str> = parts.split('|').collect();
    assert_eq!(parts.len(), count, "parts that go together: {line}");
    [before, parts[turn], &chosen(after, turn, count)].concat()
}

/// The case of a row without what is expected, its output buffer of this length where
/// the row names none.
fn case(text: &str, room: &str) -> Case {
    let columns: Vec<&str> = text
        .split("  ")
        .map(str::trim)
        .filter(|column| !column.is_empty())
        .collect();
    match columns[..] {
        ["N", own_type, length] => Case::Fresh {
            own_type: bytes(own_type)[0],
            memory: vec![FILLER; length_of(length)],
        },
        ["R", words, frame] => run(words, frame),
        ["W", form, header, block] => write(form, header, block, room),
        ["W", form, header, block, room] => write(form, header, block, room),
        ["F", form, frame] => reform(form, frame, room),
        ["F", form, frame, room] => reform(form, frame, room),
        ["J", form, first, second] => join(form, first, second, room),
        ["J", form, first, second, room] => join(form, first, second, room),
        ["D", first, count] => Case::Renewal {
            first: date(first),
            count: number(count) as i16,
        },
        ["Y", one] => Case::Weekday { date: date(one) },
        ["B", first, second] => Case::Days {
            first: date(first),
            second: date(second),
        },
        ["T", offset, reading] => Case::Temperature {
            offset: number(offset) as i8,
            reading: number(reading) as i16,
        },
        ["P", words, bits] => Case::Port {
            settings: board(words).settings,
            bits: number(bits) as u8,
        },
        _ => panic!("no case: {text}"),
    }
}

/// A column that may be empty is written `-`.
fn text_of(column: &str) -> &str {
    match column {
        "-" => "",
        _ => column,
    }
}

fn length_of(text: &str) -> usize {
    number(text) as usize
}

fn run(words: &str, frame_text: &str) -> Case {
    let (of_reply, of_board): (Vec<&str>, Vec<&str>) = words
        .split(' ')
        .partition(|word| word.starts_with("short=") || word.starts_with("long="));
    let board = board(&of_board.join(" "));
    let more = match of_reply.first().and_then(|word| word.split_once('=')) {
        Some(("short", by)) => -number(by),
        Some((_, by)) => number(by),
        None => 0,
    };
    let length = (board.memory.len() + REPLY_MARGIN) as i64 + more;
    Case::Run {
        board,
        reply: vec![FILLER; length.max(0) as usize],
        frame: frame(text_of(frame_text)),
    }
}

fn write(form: &str, header: &str, block: &str, room: &str) -> Case {
    let block = bytes(block);
    Case::Write {
        form: number(form) as u8,
        header: bytes(text_of(header)),
        command: block[0],
        data: block[1..].to_vec(),
        output: vec![FILLER; length_of(room)],
    }
}

fn reform(form: &str, frame_text: &str, room: &str) -> Case {
    Case::Reform {
        form: number(form) as u8,
        frame: frame(text_of(frame_text)),
        output: vec![FILLER; length_of(room)],
    }
}

fn join(form: &str, first: &str, second: &str, room: &str) -> Case {
    Case::Join {
        form: number(form) as u8,
        first: frame(text_of(first)),
        second: frame(text_of(second)),
        output: vec![FILLER; length_of(room)],
    }
}

/// A date as year-month-day, whether or not it exists.
pub fn date(text: &str) -> Date {
    let parts: Vec<i64> = text.split('-').map(number).collect();
    Date {
        year: parts[0] as u16,
        month: parts[1] as u8,
        day: parts[2] as u8,
    }
}
