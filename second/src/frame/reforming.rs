//! Putting a frame into another form. "Re-forming: 15, 3 to 8 in the run's
//! order, 17, 18, 14."

use super::forms::{form_of, put};
use super::reading;
use super::translation::translate;
use crate::numbers::Number;

/// Re-forms a frame, whoever it is addressed to and whatever its commands, and
/// gives the length.
pub fn reform(form: u8, raw: &[u8], output: &mut [u8]) -> Result<usize, Number> {
    let form = form_of(form)?;
    let translated = translate(raw)?;
    let frame = reading::read(&translated)?;
    reading::check_sums(&frame)?;
    put(form, frame.header, &frame.blocks, output)
}
