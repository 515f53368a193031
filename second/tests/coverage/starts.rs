//! What a frame of type "z" shows: memory on both sides of its limit, what the board had
//! before, and its place in the orders of the numbers.

use second::board::files::walk;
use second::board::first_start::LEAST_TO_START;
use second::board::run::Ran;
use second::board::Board;

use crate::frames::{is_small, is_start, is_start_frame};
use crate::Facts;

pub fn look_at(facts: &mut Facts, board: &Board, raw: &[u8], ran: &Ran, number: u8) {
    if !is_start_frame(raw) {
        return;
    }
    let (of, memory, length) = (&board.settings, &board.memory, board.memory.len());
    let is_short = length < LEAST_TO_START;
    shown! { facts;
        true => "start in {length} {number}";
        length < 1_000 => "start in little {number}";
        length > LEAST_TO_START + 1 => "start in much {number}";
        is_short && number < 10 => "order {number} 28";
        !is_short && number == 9 => "start missed with room";
    }
    if number == 0 {
        let (files, _) = walk(memory, of.files).unwrap_or_default();
        shown! { facts;
            true => "start over {} files", of.files;
            files.iter().any(|file| memory[file.content.start] != 0) => "start over contents";
            of.register != 0x40 => "start keeps the register";
            of.offset != 0 => "start keeps the offset";
            of.address != 0 => "start keeps the address";
            true => "start and done {} refused {}", ran.done > 0, ran.refused > 0;
        }
    }
}

/// Writing and re-forming, which take it.
pub fn look_at_result(facts: &mut Facts, call: char, form: u8, header: &[u8], number: u8) {
    shown! { facts;
        is_start(header) => "{call} start {form} {number}";
        is_start(header) && number == 0 && header[1..].iter().any(is_small) => "{call} start small";
    }
}

/// Two frames that read well, by their headers.
pub fn look_at_join(facts: &mut Facts, [one, two]: [&[u8]; 2], number: u8) {
    shown! { facts;
        is_start(one) && is_start(two) => "J start both {number}";
        is_start(one) != is_start(two) => "J start {} {number}", is_start(one);
        number == 19 && one != two => "J start letters 19";
    }
}
