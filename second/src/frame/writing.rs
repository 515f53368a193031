//! Writing a one-command frame. "Writing: 15, 6, 16, 18, 14."

use super::body::Block;
use super::forms::{form_of, put};
use super::header;
use crate::bytes::LOWEST_DATA;
use crate::numbers::{Number, LOW_BYTE};

/// Writes one command under a header, in the form asked for, and gives the length.
pub fn write(
    form: u8,
    header: &[u8],
    command: u8,
    data: &[u8],
    output: &mut [u8],
) -> Result<usize, Number> {
    let form = form_of(form)?;
    header::pairs(header)?;
    check_bytes(command, data)?;
    let block = Block {
        command,
        data,
        given_sum: None,
    };
    put(form, header, &[block], output)
}

/// "command or data byte below 05H".
fn check_bytes(command: u8, data: &[u8]) -> Result<(), Number> {
    if command < LOWEST_DATA || data.iter().any(|&byte| byte < LOWEST_DATA) {
        return Err(LOW_BYTE);
    }
    Ok(())
}
