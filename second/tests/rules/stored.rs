//! Every row of the tables of stored cases answers what it says, whole: number,
//! counts, reply, settings, memory and the rest of each buffer.
//!
//! What a row expects, behind its number:
//! - of a run: `2+1` the blocks done and refused, `2:23` the first refused block's place
//!   and number, `reply=..` the reply's block, `hour=14` a setting, `A=HELLO` what file A
//!   holds, `+..` and `crowd=..` all files as a board's words have them, `empty` no file. What is not
//!   named is as it was, but for the bit of the register that 20, 21 and 23 set.
//! - of an output: `out=..` header and blocks as a frame without its sums and escapes.
//! - of a date or a number: itself.

use std::collections::BTreeSet;

use second::board::files::walk;
use second::board::run::Ran;
use second::board::settings::Settings;
use second::board::Board;
use second::compare::answer::{Answer, Given};
use second::compare::stored::notation::{
    board, bytes, frame, number as value_of, repeated, reply, set, FILLER,
};
use second::compare::stored::{date, stored, Row};
use second::compare::stream::Case;
use second::dates::Date;

#[test]
fn every_stored_case_answers_what_its_row_says() {
    let wrong: Vec<String> = stored()
        .into_iter()
        .filter_map(|row| {
            let place = row.place.clone();
            let told = told(&row);
            let was_as_expected = std::panic::catch_unwind(|| check(row)).unwrap_or(false);
            (!was_as_expected).then(|| format!("{place}\n    but was {told}"))
        })
        .collect();
    assert!(
        wrong.is_empty(),
        "{} rows:\n{}",
        wrong.len(),
        wrong.join("\n")
    );
}

/// The numbers of each call, for a run those of its first refused block too.
const NUMBERS: [(&str, &[u8]); 10] = [
    ("N", &[0, 10, 11]),
    (
        "R",
        &[
            0, 1, 2, 3, 4, 5, 6, 7, 8, 9, 20, 21, 22, 23, 24, 25, 26, 27, 28,
        ],
    ),
    ("W", &[0, 6, 14, 15, 16, 18]),
    ("F", &[0, 3, 4, 5, 6, 7, 8, 14, 15, 17, 18]),
    ("J", &[0, 3, 4, 5, 6, 7, 8, 12, 13, 14, 15, 17, 18, 19]),
    ("D", &[0, 30, 31, 32]),
    ("Y", &[0, 30]),
    ("B", &[0, 30]),
    ("T", &[0, 1, 33]),
    ("P", &[0, 1]),
];

#[test]
fn the_stored_cases_are_few_and_hold_every_number_of_every_call() {
    let rows = stored();
    let bytes: usize = rows.iter().map(|row| row.case.encode().len()).sum();
    assert!(rows.len() <= 2_000, "{} cases", rows.len());
    assert!(bytes <= 700_000, "{bytes} bytes");
    let told: BTreeSet<(u8, u8)> = rows
        .into_iter()
        .map(|row| (row.case.call(), number_told(row.case.answer())))
        .collect();
    let wanted: BTreeSet<(u8, u8)> = NUMBERS
        .iter()
        .flat_map(|(call, numbers)| numbers.iter().map(|number| (call.as_bytes()[0], *number)))
        .collect();
    assert_eq!(told, wanted);
}

/// The number of an answer, or that of its first refused block.
fn number_told(answer: Answer) -> u8 {
    match answer.given {
        Given::Run { ran, .. } if ran.first_number != 0 => ran.first_number,
        _ => answer.number,
    }
}

/// The start of the line of a row's case.
fn told(row: &Row) -> String {
    let line = row.case.clone().answer().line();
    String::from_utf8_lossy(&line).chars().take(120).collect()
}

/// Whether a row answers what it says.
fn check(row: Row) -> bool {
    let mut words: Vec<&str> = row.expected.split(' ').collect();
    let expected = value_of(words.remove(0)) as u8;
    let Answer { number, given } = row.case.clone().answer();
    match (row.case, given) {
        (Case::Fresh { own_type, memory }, Given::Board(after)) => {
            number == expected && after == fresh(number, own_type, memory)
        }
        (
            Case::Run { board, reply, .. },
            Given::Run {
                ran,
                board: after,
                reply: replied,
            },
        ) => {
            let meant = Meant::new(expected, &words, board);
            number == meant.number
                && meant.done.is_none_or(|done| done == ran.done)
                && meant.refused == ran.refused
                && meant.first == (ran.first_place, ran.first_number)
                && meant.board == after
                && is_reply(&words, ran, &reply, &replied)
        }
        (case, Given::Output { length, output }) => {
            number == expected && is_output(&words, &case, length, &output)
        }
        (_, Given::Date(after)) => {
            let meant = words.first().map_or(Date::default(), |word| date(word));
            number == expected && after == meant
        }
        (_, Given::Value(after)) => {
            let meant = words.first().map_or(0, |word| value_of(word) as i32);
            number == expected && after == meant
        }
        (Case::Port { settings, .. }, Given::Settings(after)) => {
            let mut meant = Board {
                settings,
                ..Board::default()
            };
            words.iter().for_each(|word| change(&mut meant, word));
            number == expected && after == meant.settings
        }
        _ => false,
    }
}

/// "A fresh board has 00:00, 01 01 00, format S, speaker off, address 00, no files,
/// memory all zero"; "memory untouched", "settings from 10 or 11 all zero".
fn fresh(number: u8, own_type: u8, memory: Vec<u8>) -> Board {
    if number != 0 {
        return Board {
            settings: Settings::default(),
            memory,
        };
    }
    board(&format!("{} type=\\{own_type:02X}", memory.len()))
}

/// What a row expects of a run.
struct Meant {
    number: u8,
    done: Option<usize>,
    refused: usize,
    first: (usize, u8),
    board: Board,
}

impl Meant {
    /// What a row's number and words mean on this board.
    fn new(expected: u8, words: &[&str], board: Board) -> Meant {
        let is_block = (20..28).contains(&expected);
        let mut meant = Meant {
            number: if is_block { 0 } else { expected },
            done: (expected != 0 && !is_block).then_some(0),
            refused: usize::from(is_block),
            first: (0, 0),
            board,
        };
        if is_block {
            meant.refuse(1, expected);
        }
        let (of_files, others): (Vec<&str>, Vec<&str>) =
            words.iter().partition(|word| is_of_files(word));
        if !of_files.is_empty() {
            meant.lay(&of_files.join(" "));
        }
        for word in others {
            if let Some((done, refused)) = counts(word, '+') {
                (meant.done, meant.refused) = (Some(done), refused);
            } else if let Some((place, first)) = counts(word, ':') {
                assert!(!is_block || first == usize::from(expected));
                meant.refuse(place, first as u8);
            } else if !word.starts_with("reply=") {
                change(&mut meant.board, word);
            }
        }
        meant
    }

    /// The first refused block, and the bit of the register that it sets.
    fn refuse(&mut self, place: usize, number: u8) {
        self.first = (place, number);
        self.board.settings.register |= match number {
            20 => 0x10,
            21 | 23 => 0x20,
            _ => 0,
        };
    }

    /// Files in the place of those that were there.
    fn lay(&mut self, files: &str) {
        let length = self.board.memory.len();
        let laid = board(&format!("{length} {}", files.trim_end_matches("empty")));
        self.board.memory = laid.memory;
        self.board.settings.files = laid.settings.files;
        self.board.settings.unused = laid.settings.unused;
        self.board.settings.index = laid.settings.index;
    }
}

/// A file, or the word for many of them or for none.
fn is_of_files(word: &str) -> bool {
    word.starts_with('+') || word.starts_with("crowd=") || word == "empty"
}

/// Two numbers parted by this character.
fn counts(word: &str, by: char) -> Option<(usize, usize)> {
    let (one, other) = word.split_once(by)?;
    Some((one.parse().ok()?, other.parse().ok()?))
}

/// A setting, or behind a label of one byte what its file holds.
fn change(meant: &mut Board, word: &str) {
    let (key, value) = word.split_once('=').expect("a change");
    let label = bytes(key);
    if label.len() > 1 {
        return set(meant, key, value);
    }
    let (files, _) = walk(&meant.memory, meant.settings.files).expect("files");
    let file = files
        .into_iter()
        .find(|file| file.record.label == label[0])
        .expect("a file");
    let mut content = bytes(value);
    assert!(content.len() <= file.content.len(), "more than SIZE");
    content.resize(file.content.len(), 0);
    meant.memory[file.content].copy_from_slice(&content);
}

/// "It stands at the start of the reply buffer; nothing after it is touched, and
/// nothing at all where there is no reply."
fn is_reply(words: &[&str], ran: Ran, before: &[u8], after: &[u8]) -> bool {
    let word = words.iter().find_map(|word| word.strip_prefix("reply="));
    let meant = word.map_or(Vec::new(), reply);
    ran.reply_length == meant.len()
        && after.starts_with(&meant)
        && after[meant.len()..] == before[meant.len()..]
}

/// "The result starts the output buffer; the rest of it is untouched; its length is
/// returned."
fn is_output(words: &[&str], case: &Case, length: usize, after: &[u8]) -> bool {
    let form = match case {
        Case::Write { form, .. } | Case::Reform { form, .. } | Case::Join { form, .. } => *form,
        _ => 0,
    };
    let word = words.iter().find_map(|word| word.strip_prefix("out="));
    let meant = word.map_or(Vec::new(), |sketch| in_form(form, sketch));
    length == meant.len()
        && after.starts_with(&meant)
        && after[meant.len()..].iter().all(|&byte| byte == FILLER)
}

/// The frame of this header and these blocks in a form: "1 plain: five NUL, SOH,
/// header, blocks parted by ETX, EOT straight after the last data. 2 summed: the same
/// with ETX and checksum on each block. 3 printable: form 2 without the NULs, bytes
/// below 20H, above 7EH and 5FH as escapes."
fn in_form(form: u8, sketch: &str) -> Vec<u8> {
    let sketch = repeated(sketch);
    let with_sums = sketch.replace('^', "+^").replacen("+^", "^", 1) + "+";
    match form {
        1 => frame(&sketch),
        2 => frame(&with_sums),
        _ => frame(&format!("print:{with_sums}")),
    }
}
