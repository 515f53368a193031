//! The body: "1 to 64 blocks, then EOT as the very last byte".

use crate::bytes::{
    EOT, ETX, LOWEST_DATA, READ_LARGE_PICTURE, READ_PICTURE, READ_SPECIAL, READ_STRING, READ_TEXT,
    STX,
};
use crate::hex::{frame_digit, word_value};
use crate::numbers::{Number, BAD_BODY, READ_NOT_LAST};

/// "1 to 64 blocks".
pub const MOST_BLOCKS: usize = 64;

/// "A block is STX, a command byte, data", and its checksum where it has one.
#[derive(Clone, Copy, Debug, PartialEq, Eq)]
pub struct Block<'a> {
    pub command: u8,
    pub data: &'a [u8],
    pub given_sum: Option<u16>,
}

/// All blocks of a body that starts at its first STX.
pub fn blocks(body: &[u8]) -> Result<Vec<Block<'_>>, Number> {
    let mut blocks = Vec::new();
    let mut rest = body;
    loop {
        if blocks.len() == MOST_BLOCKS {
            return Err(BAD_BODY);
        }
        let (block, after) = take_block(rest).ok_or(BAD_BODY)?;
        blocks.push(block);
        rest = match after {
            [EOT] => return Ok(blocks),
            [STX, ..] => after,
            _ => return Err(BAD_BODY),
        };
    }
}

/// The block at the start, and what comes after it, from the next STX or EOT.
fn take_block(bytes: &[u8]) -> Option<(Block<'_>, &[u8])> {
    let (command, tail) = match bytes {
        [STX, command, tail @ ..] if *command >= LOWEST_DATA => (*command, tail),
        _ => return None,
    };
    let length = tail.iter().take_while(|&&b| b >= LOWEST_DATA).count();
    let (data, end) = tail.split_at(length);
    let (given_sum, after) = take_end(end)?;
    let block = Block {
        command,
        data,
        given_sum,
    };
    Some((block, after))
}

/// "ETX ends a block; only the last may end at EOT without it. After ETX, STX
/// or EOT means no checksum; otherwise four upper-case hex digits, then STX or
/// EOT." Request 4 takes small letters too.
fn take_end(end: &[u8]) -> Option<(Option<u16>, &[u8])> {
    match end {
        [EOT, ..] => Some((None, end)),
        [ETX, after @ ..] if is_at_next(after) => Some((None, after)),
        [ETX, a, b, c, d, after @ ..] if is_at_next(after) => {
            let sum = word_value([*a, *b, *c, *d], frame_digit)?;
            Some((Some(sum), after))
        }
        _ => None,
    }
}

/// Whether the next block or the frame's end stands here: "STX or EOT".
fn is_at_next(bytes: &[u8]) -> bool {
    matches!(bytes, [STX | EOT, ..])
}

/// "A read (codes "B", "F", "H", "J", "N")".
pub fn is_read(command: u8) -> bool {
    matches!(
        command,
        READ_TEXT | READ_SPECIAL | READ_STRING | READ_PICTURE | READ_LARGE_PICTURE
    )
}

/// "A read ... may only be the last block, good sum or not."
pub fn check_reads(blocks: &[Block<'_>]) -> Result<(), Number> {
    match blocks.split_last() {
        Some((_, before)) if before.iter().any(|block| is_read(block.command)) => {
            Err(READ_NOT_LAST)
        }
        _ => Ok(()),
    }
}

/// Whether the frame has a read, which can only be its last block.
pub fn has_read(blocks: &[Block<'_>]) -> bool {
    blocks.iter().any(|block| is_read(block.command))
}
