//! The case stream: a case is a call byte and its arguments in order.

use super::answer::{Answer, Given};
use super::parts::Part;
use crate::board::fresh::fresh;
use crate::board::port::port_errors;
use crate::board::run::run;
use crate::board::settings::Settings;
use crate::board::Board;
use crate::dates::days_between::days_between;
use crate::dates::renewal::renewal;
use crate::dates::weekday::weekday;
use crate::dates::Date;
use crate::frame::joining::join;
use crate::frame::reforming::reform;
use crate::frame::writing::write;
use crate::temperature::temperature;

/// The line for a case that cannot be read.
const BAD_CASE: &[u8] = b"bad case\n";

/// The calls: a call byte, a name and the arguments in the stream's order.
macro_rules! calls {
    ($($byte:literal $name:ident { $($field:ident: $part:ty),* })*) => {
        /// One call with its arguments.
        #[derive(Clone, Debug, PartialEq, Eq)]
        pub enum Case {
            $($name { $($field: $part),* },)*
        }

        /// All call bytes.
        pub const CALLS: &[u8] = &[$($byte),*];

        impl Case {
            /// The case's call byte.
            pub fn call(&self) -> u8 {
                match self {
                    $(Case::$name { .. } => $byte,)*
                }
            }

            /// The case as it stands in a stream.
            pub fn encode(&self) -> Vec<u8> {
                let mut bytes = vec![self.call()];
                match self {
                    $(Case::$name { $($field),* } => { $($field.put(&mut bytes);)* })*
                }
                bytes
            }

            /// The next case; none for "an unknown call byte", "settings of another
            /// length" and "an input that ends inside a case".
            fn take(stream: &mut &[u8]) -> Option<Case> {
                match u8::take(stream)? {
                    $($byte => Some(Case::$name { $($field: Part::take(stream)?),* }),)*
                    _ => None,
                }
            }
        }
    };
}

calls! {
    b'N' Fresh { own_type: u8, memory: Vec<u8> }
    b'R' Run { board: Board, reply: Vec<u8>, frame: Vec<u8> }
    b'W' Write { form: u8, header: Vec<u8>, command: u8, data: Vec<u8>, output: Vec<u8> }
    b'F' Reform { form: u8, frame: Vec<u8>, output: Vec<u8> }
    b'J' Join { form: u8, first: Vec<u8>, second: Vec<u8>, output: Vec<u8> }
    b'D' Renewal { first: Date, count: i16 }
    b'Y' Weekday { date: Date }
    b'B' Days { first: Date, second: Date }
    b'T' Temperature { offset: i8, reading: i16 }
    b'P' Port { settings: Settings, bits: u8 }
}

impl Case {
    /// Makes the call.
    pub fn answer(self) -> Answer {
        match self {
            Case::Fresh { own_type, memory } => {
                let mut board = Board {
                    memory,
                    ..Board::default()
                };
                let result = fresh(&mut board, own_type);
                Answer::of(result, |()| Given::Board(board))
            }
            Case::Run {
                mut board,
                mut reply,
                frame,
            } => {
                let result = run(&mut board, &mut reply, &frame);
                Answer::of(result, |ran| Given::Run { ran, board, reply })
            }
            Case::Write {
                form,
                header,
                command,
                data,
                mut output,
            } => {
                let result = write(form, &header, command, &data, &mut output);
                Answer::of(result, |length| Given::Output { length, output })
            }
            Case::Reform {
                form,
                frame,
                mut output,
            } => {
                let result = reform(form, &frame, &mut output);
                Answer::of(result, |length| Given::Output { length, output })
            }
            Case::Join {
                form,
                first,
                second,
                mut output,
            } => {
                let result = join(form, &first, &second, &mut output);
                Answer::of(result, |length| Given::Output { length, output })
            }
            Case::Renewal { first, count } => Answer::of(renewal(first, count), Given::Date),
            Case::Weekday { date } => Answer::of(weekday(date), Given::value),
            Case::Days { first, second } => Answer::of(days_between(first, second), Given::value),
            Case::Temperature { offset, reading } => {
                Answer::of(temperature(offset, reading), Given::value)
            }
            Case::Port { mut settings, bits } => {
                let result = port_errors(&mut settings, bits);
                Answer::of(result, |()| Given::Settings(settings))
            }
        }
    }
}

/// The cases of a stream. One that cannot be read is none, and the last.
pub fn cases(mut stream: &[u8]) -> impl Iterator<Item = Option<Case>> + '_ {
    std::iter::from_fn(move || {
        if stream.is_empty() {
            return None;
        }
        let case = Case::take(&mut stream);
        if case.is_none() {
            stream = &[];
        }
        Some(case)
    })
}

/// The lines for the cases of a stream, and whether all of them could be read: one
/// that cannot "writes the line `bad case` and ends the program".
pub fn replay(stream: &[u8]) -> (Vec<u8>, bool) {
    let mut lines = Vec::new();
    for case in cases(stream) {
        match case {
            Some(case) => lines.extend(case.answer().line()),
            None => {
                lines.extend_from_slice(BAD_CASE);
                return (lines, false);
            }
        }
    }
    (lines, true)
}
