//! What a call gave, and the line that is written for it.

use super::parts::Part;
use crate::board::run::Ran;
use crate::board::settings::Settings;
use crate::board::Board;
use crate::dates::Date;
use crate::hex::byte_digits;
use crate::numbers::{answered, Number};

/// The number that came back and all else, boards and buffers as the call left them.
#[derive(Clone, Debug, PartialEq, Eq)]
pub struct Answer {
    pub number: Number,
    pub given: Given,
}

/// What came back besides the number.
#[derive(Clone, Debug, PartialEq, Eq)]
pub enum Given {
    Board(Board),
    Run {
        ran: Ran,
        board: Board,
        reply: Vec<u8>,
    },
    Output {
        length: usize,
        output: Vec<u8>,
    },
    Date(Date),
    Value(i32),
    Settings(Settings),
}

impl Given {
    pub fn value(value: impl Into<i32>) -> Given {
        Given::Value(value.into())
    }
}

impl Answer {
    /// The answer of a call with this result; a refusal's values are zeros.
    pub fn of<T: Default>(result: Result<T, Number>, given: impl FnOnce(T) -> Given) -> Answer {
        let (number, value) = answered(result);
        Answer {
            number,
            given: given(value),
        }
    }

    /// "A line for each case, ended by LF, its fields parted by single spaces;
    /// numbers in decimal, strings in upper-case hex, an empty string as `-`."
    pub fn line(&self) -> Vec<u8> {
        let mut line = Line(self.number.to_string().into_bytes());
        match &self.given {
            Given::Board(board) => line.board(board),
            Given::Run { ran, board, reply } => {
                line.number(ran.done);
                line.number(ran.refused);
                line.number(ran.first_place);
                line.number(ran.first_number);
                line.number(ran.reply_length);
                line.board(board);
                line.string(reply);
            }
            Given::Output { length, output } => {
                line.number(length);
                line.string(output);
            }
            Given::Date(date) => {
                line.number(date.year);
                line.number(date.month);
                line.number(date.day);
            }
            Given::Value(value) => line.number(value),
            Given::Settings(settings) => line.settings(settings),
        }
        line.0.push(b'\n');
        line.0
    }
}

/// A line behind its first field.
struct Line(Vec<u8>);

impl Line {
    /// A number in decimal, "with "-" below 0".
    fn number(&mut self, number: impl ToString) {
        self.0.push(b' ');
        self.0.extend_from_slice(number.to_string().as_bytes());
    }

    fn string(&mut self, string: &[u8]) {
        self.0.push(b' ');
        if string.is_empty() {
            self.0.push(b'-');
        }
        self.0
            .extend(string.iter().flat_map(|&byte| byte_digits(byte)));
    }

    fn board(&mut self, board: &Board) {
        self.settings(&board.settings);
        self.string(&board.memory);
    }

    fn settings(&mut self, settings: &Settings) {
        for field in settings.fields() {
            self.number(field);
        }
        self.number(settings.unused);
        let mut index = Vec::new();
        settings.index.put(&mut index);
        self.string(&index);
        self.number(settings.offset);
        self.number(settings.register);
    }
}
