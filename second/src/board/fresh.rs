//! A fresh board. "Fresh: 10, 11."

use super::settings::Settings;
use super::soundness::is_memory_length;
use super::unused::unused;
use super::Board;
use crate::bytes::NUL;
use crate::frame::header::is_own_type;
use crate::numbers::{Number, WRONG_MEMORY, WRONG_TYPE};

/// Makes a fresh board of what it is handed: "memory all zero". "10 to 18: output
/// and memory untouched, length 0, settings from 10 or 11 all zero."
pub fn fresh(board: &mut Board, own_type: u8) -> Result<(), Number> {
    board.settings = Settings::default();
    if !is_own_type(own_type) {
        return Err(WRONG_TYPE);
    }
    if !is_memory_length(board.memory.len()) {
        return Err(WRONG_MEMORY);
    }
    let unused = unused(board.memory.len(), &[]).ok_or(WRONG_MEMORY)?;
    board.settings = Settings::fresh(own_type, unused);
    board.memory.fill(NUL);
    Ok(())
}
