//! Joining two frames. "Joining: 15, the first input's 3 to 8 and 17, the
//! second's, 12, 13, 18, 14." Request 11: "19, joining a "z" header, straight after
//! 12".

use super::body::has_read;
use super::forms::{form_of, put};
use super::header::{capitals, starts};
use super::reading::{self, Frame};
use super::translation::translate;
use crate::numbers::{Number, FIRST_HAS_READ, HEADERS_DIFFER, JOINS_FIRST_START};

/// "Joining puts the second frame's blocks after the first's under the common
/// header." Gives the length.
pub fn join(form: u8, first: &[u8], second: &[u8], output: &mut [u8]) -> Result<usize, Number> {
    let form = form_of(form)?;
    let translated_first = translate(first)?;
    let first = reading::read(&translated_first)?;
    reading::check_sums(&first)?;
    let translated_second = translate(second)?;
    let second = reading::read(&translated_second)?;
    reading::check_sums(&second)?;
    check_headers(&first, &second)?;
    check_no_start(&first)?;
    check_first(&first)?;
    let blocks = [first.blocks, second.blocks].concat();
    put(form, first.header, &blocks, output)
}

/// "join: header texts differ". Request 4: headers that differ only in small
/// letters "count as equal in joining".
fn check_headers(first: &Frame<'_>, second: &Frame<'_>) -> Result<(), Number> {
    if capitals(first.header) != capitals(second.header) {
        return Err(HEADERS_DIFFER);
    }
    Ok(())
}

/// Request 11: "Two such frames would empty the files twice, so joining refuses it."
/// The two have one header here.
fn check_no_start(first: &Frame<'_>) -> Result<(), Number> {
    if starts(&first.pairs) {
        return Err(JOINS_FIRST_START);
    }
    Ok(())
}

/// "first frame has a read".
fn check_first(first: &Frame<'_>) -> Result<(), Number> {
    if has_read(&first.blocks) {
        return Err(FIRST_HAS_READ);
    }
    Ok(())
}
