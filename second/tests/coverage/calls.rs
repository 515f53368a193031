//! What a case and its answer show: the call's number and its arguments at their ends.

use second::board::run::REPLY_MARGIN;
use second::board::soundness::is_memory_length;
use second::board::Board;
use second::compare::answer::Given;
use second::compare::stream::Case;
use second::frame::header::{capitals, pairs};
use second::frame::reforming::reform;
use second::frame::translation::MOST_PRINTABLE;

use crate::{blocks, boards, dates, frames, starts, Facts};

pub fn facts(case: &Case) -> Facts {
    let mut facts = Facts::new();
    let answer = case.clone().answer();
    let (call, number) = (char::from(case.call()), answer.number);
    shown! { facts; true => "{call} {number}"; }
    match case {
        Case::Fresh { own_type, memory } => shown! { facts;
            true => "N memory {} {number}", memory.len();
            number != 10 => "N type {own_type:02X}";
            number == 10 && !is_memory_length(memory.len()) => "order 10 11";
        },
        Case::Run { board, .. } => boards::look_at(&mut facts, board, number),
        Case::Temperature { offset, reading } => shown! { facts;
            number < 33 => "T offset {offset} {number}";
            number != 1 => "T reading {reading} {number}";
            number == 0 => "T sum {}", i16::from(*offset) + reading;
            number == 1 && i8::try_from(*reading).is_err() => "order 1 33";
        },
        Case::Port { settings, bits } => {
            let register = settings.register;
            for bit in 0..8 {
                let (comes, is_set) = (bits >> bit & 1, register >> bit & 1);
                shown! { facts; number == 0 => "P bit {bit} comes {comes} is {is_set}"; }
            }
            shown! { facts;
                true => "P fixed {:02b} {number}", register >> 6;
                number == 1 && register >> 6 == 0 && bits & 0x40 > 0 => "P not mended";
                number == 0 && !boards::is_boards(*settings) => "P settings of no board";
            }
        }
        _ => dates::look_at(&mut facts, case, &answer),
    }
    match &answer.given {
        Given::Run { ran, .. } => {
            if let Case::Run {
                board,
                frame,
                reply,
            } = case
            {
                of_run(&mut facts, board, reply.len(), frame, number);
                starts::look_at(&mut facts, board, frame, ran, number);
                blocks::look_at(&mut facts, board, frame, ran);
            }
        }
        Given::Output { length, output } => of_output(&mut facts, case, number, *length, output),
        _ => {}
    }
    facts
}

fn of_run(facts: &mut Facts, board: &Board, reply: usize, frame: &[u8], number: u8) {
    let needed = board.memory.len() + REPLY_MARGIN;
    let more = (reply as i64 - needed as i64).clamp(-2, 1);
    let is_bad = frames::read_parts(frame).is_none();
    shown! { facts;
        true => "reply {more} {number}";
        number == 1 && more < 0 => "order 1 2";
        number == 1 && is_bad => "order 1 frame";
        number == 2 && is_bad => "order 2 frame";
    }
    if number != 1 && number != 2 {
        frames::look_at(facts, 'R', frame, number);
        frames::look_at_pairs(facts, frame, &board.settings, number);
    }
}

/// A result beside 8,192 bytes and beside the buffer's, and what it is made of.
fn of_output(facts: &mut Facts, case: &Case, number: u8, length: usize, output: &[u8]) {
    let encoded = case.encode();
    let (call, form, room) = (char::from(encoded[0]), encoded[1], output.len());
    let size = match case {
        Case::Write {
            header,
            command,
            data,
            ..
        } => {
            frames::look_at_header(facts, 'W', header, number);
            starts::look_at_result(facts, 'W', form, header, number);
            let low = data.iter().chain([command]).any(|&byte| byte < 5);
            shown! { facts;
                number == 15 && pairs(header).is_err() => "order 15 6";
                number == 6 && low => "order 6 16";
                number == 16 && *command == 4 => "16 command 4";
                number == 16 && data.contains(&4) => "16 data 4";
            }
            frames::result_length(form, header, &[data])
        }
        Case::Reform { frame, .. } => {
            frames::look_at(facts, 'F', frame, number);
            let (header, _) = frames::read_parts(frame).unwrap_or_default();
            starts::look_at_result(facts, 'F', form, &header, number);
            frames::length_of(form, &[frame])
        }
        Case::Join { first, second, .. } => {
            of_join(facts, [first, second], number);
            frames::length_of(form, &[first, second])
        }
        _ => 0,
    };
    shown! { facts;
        size > 8_000 => "result {form} {size} {}", u8::from(number == 18);
        number == 16 && size > 8_192 => "order 16 18";
        number == 19 && size > room => "order 19 14";
        number == 0 && length == room => "{call} output exact {form}";
        number == 0 && length < room => "{call} output longer {form}";
        number == 14 && room > 0 => "{call} output short {form}";
        number == 14 && room == 0 => "output none";
    }
}

fn of_join(facts: &mut Facts, [first, second]: [&Vec<u8>; 2], number: u8) {
    let reformed = |frame| reform(2, frame, &mut vec![0; MOST_PRINTABLE]).err();
    let fault = |frame| reformed(frame).filter(|&number| number < 18).unwrap_or(0);
    let (one, two) = (fault(first), fault(second));
    frames::look_at(facts, 'J', first, one);
    frames::look_at(facts, 'J', second, two);
    shown! { facts;
        number == one => "J first {one}";
        number == two && one == 0 => "J second {two}";
        number == 15 && one > 0 => "order 15 first";
        number == one && one > 0 && two > 0 => "order first second";
    }
    let frames = (frames::read_parts(first), frames::read_parts(second));
    if let (Some((one, blocks)), Some((two, more))) = frames {
        let count = blocks.len() + more.len();
        let is_parted = capitals(&one) != capitals(&two);
        shown! { facts;
            number == 17 && is_parted => "order 17 12";
            number == 12 && frames::ends_with_read(first) => "order 12 13";
            number == 13 && count > 64 => "order 13 18";
            number == 0 && one != two => "J letters";
            number == 12 && one.eq_ignore_ascii_case(&two) => "J case of a type";
            !matches!(number, 12 | 13 | 19) => "J blocks {count} {}", u8::from(number == 18);
        }
        starts::look_at_join(facts, [&one, &two], number);
        shown! { facts;
            number == 19 && frames::ends_with_read(first) => "order 19 13";
            number == 19 && count > 64 => "order 19 18";
        }
    }
}
