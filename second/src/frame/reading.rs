//! A whole frame: "lead (4), 6, 7, 8" of the run's order, after the
//! translation's part of it.

use super::body::{self, Block};
use super::header::{self, Pair};
use super::lead;
use super::sum;
use super::translation::Translated;
use crate::numbers::{Number, WRONG_SUM_IN_INPUT};

/// A frame that reads well. It need not be addressed to anybody.
#[derive(Debug)]
pub struct Frame<'a> {
    /// The header's text as received, up to the first STX.
    pub header: &'a [u8],
    pub pairs: Vec<Pair>,
    pub blocks: Vec<Block<'a>>,
}

/// Reads translated bytes: "lead (4), 6, 7, 8".
pub fn read<'a>(input: &'a Translated<'_>) -> Result<Frame<'a>, Number> {
    let after_lead = lead::after_lead(&input.bytes, input.way)?;
    let (header, body) = header::split(after_lead)?;
    let pairs = header::pairs(header)?;
    let blocks = body::blocks(body)?;
    body::check_reads(&blocks)?;
    Ok(Frame {
        header,
        pairs,
        blocks,
    })
}

/// "input has a wrong checksum".
pub fn check_sums(frame: &Frame<'_>) -> Result<(), Number> {
    if frame.blocks.iter().any(sum::is_wrong) {
        return Err(WRONG_SUM_IN_INPUT);
    }
    Ok(())
}
