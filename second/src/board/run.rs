//! Running one frame on a board.

use super::commands::run_block;
use super::first_start::first_start;
use super::soundness::is_sound;
use super::Board;
use crate::frame::header::{addressed, starts};
use crate::frame::reading::{self, Frame};
use crate::frame::translation::translate;
use crate::numbers::{Number, NOT_ADDRESSED, NOT_SOUND, SHORT_REPLY_BUFFER};

/// "reply buffer shorter than memory plus 64".
pub const REPLY_MARGIN: usize = 64;

/// What a run returns besides its number: "blocks done, blocks refused, the place
/// (from 1) and number of the first refused block, both 0 if none, and the reply's
/// length".
#[derive(Clone, Copy, Debug, Default, PartialEq, Eq)]
pub struct Ran {
    pub done: usize,
    pub refused: usize,
    pub first_place: usize,
    pub first_number: Number,
    pub reply_length: usize,
}

/// Runs a frame. "Order of a run: 1, 2, empty (3), first byte (4), raw length
/// (3), 5, translated length (3), lead (4), 6, 7, 8, 9." "1 to 9: board and buffers
/// untouched, everything else returned is 0." Request 11: "28, memory below 4,186
/// bytes, straight after 9"; it "leaves and returns what 1 to 9 do".
pub fn run(board: &mut Board, reply: &mut [u8], raw: &[u8]) -> Result<Ran, Number> {
    check_board(board)?;
    check_reply_buffer(board, reply)?;
    let translated = translate(raw)?;
    let frame = reading::read(&translated)?;
    check_addressed(&frame, board)?;
    if starts(&frame.pairs) {
        first_start(board)?;
    }
    Ok(run_blocks(board, reply, &frame))
}

/// "board not sound".
fn check_board(board: &Board) -> Result<(), Number> {
    if is_sound(board) {
        Ok(())
    } else {
        Err(NOT_SOUND)
    }
}

/// "reply buffer shorter than memory plus 64", whether or not there is a read.
fn check_reply_buffer(board: &Board, reply: &[u8]) -> Result<(), Number> {
    if reply.len() < board.memory.len() + REPLY_MARGIN {
        return Err(SHORT_REPLY_BUFFER);
    }
    Ok(())
}

/// "not addressed". The address is the one handed in: a new one counts "from
/// the next frame on".
fn check_addressed(frame: &Frame<'_>, board: &Board) -> Result<(), Number> {
    if addressed(
        &frame.pairs,
        board.settings.own_type,
        board.settings.address,
    ) {
        Ok(())
    } else {
        Err(NOT_ADDRESSED)
    }
}

/// Runs every block in order. "20 to 27 concern one block; the frame's number
/// is 0."
fn run_blocks(board: &mut Board, reply: &mut [u8], frame: &Frame<'_>) -> Ran {
    let mut ran = Ran::default();
    for (index, block) in frame.blocks.iter().enumerate() {
        match run_block(board, block) {
            Ok(answer) => {
                ran.done += 1;
                if let Some(bytes) = answer {
                    ran.reply_length = place_reply(reply, &bytes);
                }
            }
            Err(number) => {
                ran.refused += 1;
                if ran.first_place == 0 {
                    ran.first_place = index + 1;
                    ran.first_number = number;
                }
            }
        }
    }
    ran
}

/// "It stands at the start of the reply buffer; nothing after it is touched".
/// The buffer is longer than any reply.
fn place_reply(reply: &mut [u8], bytes: &[u8]) -> usize {
    match reply.get_mut(..bytes.len()) {
        Some(start) => {
            start.copy_from_slice(bytes);
            bytes.len()
        }
        None => 0,
    }
}
