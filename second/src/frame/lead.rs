//! The lead of a frame, looked at in the translated bytes.

use super::translation::Way;
use crate::bytes::{NUL, SOH};
use crate::numbers::{Number, BAD_LEAD};

/// "five or more NUL and then SOH".
const FEWEST_NULS: usize = 5;
/// "six or more SOH of which the last opens the header".
const FEWEST_SOHS: usize = 6;

/// What stands after the lead: the header, the blocks and the EOT.
pub fn after_lead(bytes: &[u8], way: Way) -> Result<&[u8], Number> {
    match bytes.first() {
        Some(&NUL) => after_nuls(bytes, way),
        Some(&SOH) => after_sohs(bytes, way),
        _ => Err(BAD_LEAD),
    }
}

/// "five or more NUL and then SOH"; "Printable: any number of NUL, none
/// included, then SOH".
fn after_nuls(bytes: &[u8], way: Way) -> Result<&[u8], Number> {
    let fewest = match way {
        Way::Standard => FEWEST_NULS,
        Way::Printable => 0,
    };
    match drop_run(bytes, NUL) {
        (nuls, [SOH, after @ ..]) if nuls >= fewest => Ok(after),
        _ => Err(BAD_LEAD),
    }
}

/// "six or more SOH of which the last opens the header"; printable: "one or
/// more SOH".
fn after_sohs(bytes: &[u8], way: Way) -> Result<&[u8], Number> {
    let fewest = match way {
        Way::Standard => FEWEST_SOHS,
        Way::Printable => 1,
    };
    match drop_run(bytes, SOH) {
        (sohs, after) if sohs >= fewest => Ok(after),
        _ => Err(BAD_LEAD),
    }
}

/// How often `byte` stands at the start, and what comes after.
fn drop_run(bytes: &[u8], byte: u8) -> (usize, &[u8]) {
    let count = bytes.iter().take_while(|&&b| b == byte).count();
    (count, bytes.split_at(count).1)
}
