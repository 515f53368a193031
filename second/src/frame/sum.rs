//! The checksum of a block.

use super::body::Block;
use crate::bytes::{ETX, STX};

/// "The checksum adds every byte from STX to ETX, both counted, and drops
/// every carry out of 16 bits." Request 4: "sums add the bytes as sent".
pub fn checksum(command: u8, data: &[u8]) -> u16 {
    let ends = [STX, command, ETX];
    ends.iter()
        .chain(data)
        .fold(0, |sum: u16, &byte| sum.wrapping_add(u16::from(byte)))
}

/// A block without a checksum is never wrong; one with a checksum is wrong
/// when the two differ.
pub fn is_wrong(block: &Block<'_>) -> bool {
    block
        .given_sum
        .is_some_and(|given| given != checksum(block.command, block.data))
}
