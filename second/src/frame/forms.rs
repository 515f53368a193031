//! "Three forms we write".

use super::body::{Block, MOST_BLOCKS};
use super::header::capitals;
use super::sum::checksum;
use super::translation::MOST_TRANSLATED;
use crate::bytes::{EOT, ETX, HIGHEST_PRINTABLE, LOWEST_PRINTABLE, NUL, SOH, STX, UNDERSCORE};
use crate::hex::{byte_digits, word_digits};
use crate::numbers::{Number, RESULT_TOO_LONG, SHORT_OUTPUT, WRONG_FORM};

/// "1 plain: five NUL, SOH".
const LEAD_NULS: usize = 5;

#[derive(Clone, Copy, Debug, PartialEq, Eq)]
pub enum Form {
    Plain,
    Summed,
    Printable,
}

/// "form not 1, 2 or 3".
pub fn form_of(number: u8) -> Result<Form, Number> {
    match number {
        1 => Ok(Form::Plain),
        2 => Ok(Form::Summed),
        3 => Ok(Form::Printable),
        _ => Err(WRONG_FORM),
    }
}

/// Puts the frame into the output buffer, after "18, 14"; "its length is returned".
pub fn put(
    form: Form,
    header: &[u8],
    blocks: &[Block<'_>],
    output: &mut [u8],
) -> Result<usize, Number> {
    let translated = translated(form, header, blocks);
    check_result(&translated, blocks)?;
    let bytes = as_sent(form, translated);
    fill_start(output, &bytes)
}

/// "result over 8,192 translated bytes or 64 blocks".
fn check_result(translated: &[u8], blocks: &[Block<'_>]) -> Result<(), Number> {
    if translated.len() > MOST_TRANSLATED || blocks.len() > MOST_BLOCKS {
        return Err(RESULT_TOO_LONG);
    }
    Ok(())
}

/// "output buffer too short"; "The result starts the output buffer; the rest
/// of it is untouched".
fn fill_start(output: &mut [u8], bytes: &[u8]) -> Result<usize, Number> {
    let start = output.get_mut(..bytes.len()).ok_or(SHORT_OUTPUT)?;
    start.copy_from_slice(bytes);
    Ok(bytes.len())
}

/// The translated bytes of the result. Request 4: what we write stays in capitals,
/// "as do the escapes, sums and header addresses we write; block data are copied as
/// received".
fn translated(form: Form, header: &[u8], blocks: &[Block<'_>]) -> Vec<u8> {
    let mut bytes = Vec::new();
    if form != Form::Printable {
        bytes.extend([NUL; LEAD_NULS]);
    }
    bytes.push(SOH);
    bytes.extend(capitals(header));
    match form {
        Form::Plain => push_plain(&mut bytes, blocks),
        Form::Summed | Form::Printable => push_summed(&mut bytes, blocks),
    }
    bytes.push(EOT);
    bytes
}

/// "blocks parted by ETX, EOT straight after the last data".
fn push_plain(bytes: &mut Vec<u8>, blocks: &[Block<'_>]) {
    for (place, block) in blocks.iter().enumerate() {
        if place > 0 {
            bytes.push(ETX);
        }
        push_start(bytes, block);
    }
}

/// "the same with ETX and checksum on each block".
fn push_summed(bytes: &mut Vec<u8>, blocks: &[Block<'_>]) {
    for block in blocks {
        push_start(bytes, block);
        bytes.push(ETX);
        bytes.extend(word_digits(checksum(block.command, block.data)));
    }
}

/// "A block is STX, a command byte, data."
fn push_start(bytes: &mut Vec<u8>, block: &Block<'_>) {
    bytes.extend([STX, block.command]);
    bytes.extend_from_slice(block.data);
}

/// The bytes that stand in the buffer.
fn as_sent(form: Form, translated: Vec<u8>) -> Vec<u8> {
    match form {
        Form::Plain | Form::Summed => translated,
        Form::Printable => with_escapes(&translated),
    }
}

/// "bytes below 20H, above 7EH and 5FH as escapes".
pub fn with_escapes(translated: &[u8]) -> Vec<u8> {
    let mut bytes = Vec::with_capacity(translated.len());
    for &byte in translated {
        if needs_escape(byte) {
            push_escape(&mut bytes, byte);
        } else {
            bytes.push(byte);
        }
    }
    bytes
}

/// "bytes below 20H, above 7EH and 5FH".
pub fn needs_escape(byte: u8) -> bool {
    !(LOWEST_PRINTABLE..=HIGHEST_PRINTABLE).contains(&byte) || byte == UNDERSCORE
}

/// ""_" and two upper-case hex digits stand for that byte".
pub fn push_escape(bytes: &mut Vec<u8>, byte: u8) {
    bytes.push(UNDERSCORE);
    bytes.extend(byte_digits(byte));
}
