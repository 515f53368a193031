//! The reply to a read.

use crate::bytes::{EOT, ETX, NUL, SOH, STX};
use crate::frame::sum::checksum;
use crate::hex::word_digits;

/// "A reply is 20 NUL".
const REPLY_NULS: usize = 20;
/// Its header: "000".
const REPLY_HEADER: [u8; 3] = *b"000";

/// "A reply is 20 NUL, SOH, "000", STX, the write code (A, G or E), label,
/// data, ETX, checksum, EOT."
pub fn reply(write_code: u8, label: u8, data: &[u8]) -> Vec<u8> {
    let mut after_code = vec![label];
    after_code.extend_from_slice(data);
    let mut bytes = vec![NUL; REPLY_NULS];
    bytes.push(SOH);
    bytes.extend(REPLY_HEADER);
    bytes.extend([STX, write_code]);
    bytes.extend_from_slice(&after_code);
    bytes.push(ETX);
    bytes.extend(word_digits(checksum(write_code, &after_code)));
    bytes.push(EOT);
    bytes
}
