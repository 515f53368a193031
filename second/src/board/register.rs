//! The serial error status register, request 10: one byte, bitmapped as Table 14
//! of source document 000 has it.

use crate::numbers::{Number, NO_FILE, UNKNOWN, WRONG_SUM};

/// "Always 0": the first of the two fixed bits.
const ALWAYS_0: u8 = 0b1000_0000;
/// "Always 1": the other.
const ALWAYS_1: u8 = 0b0100_0000;
/// "Illegal Command Code, File Label, illegal read or write SPECIAL FUNCTIONS".
pub const ILLEGAL: u8 = 0b0010_0000;
/// "Serial Checksum Error".
pub const CHECKSUM: u8 = 0b0001_0000;
/// "Insufficient serial buffer space (overflow)": in range, though nothing here
/// sets it.
pub const OVERFLOW: u8 = 0b0000_1000;
/// "Serial timeout (timeout period exceeded)".
pub const TIME_OUT: u8 = 0b0000_0100;
/// "Bit framing error (incorrect baud rate)".
pub const FRAMING: u8 = 0b0000_0010;
/// "Parity error (not even parity)".
pub const PARITY: u8 = 0b0000_0001;

/// "its default value of 40H". Request 10: "A fresh register is a cleared one."
pub const CLEARED: u8 = ALWAYS_1;

/// Whether a board can hold the register: its fixed bits are "as the table has
/// them", the others as they may be.
pub fn is_register(register: u8) -> bool {
    register & (ALWAYS_0 | ALWAYS_1) == ALWAYS_1
}

/// The register after a block was refused with this number: "A block refused with
/// 20 sets the checksum bit; 21 or 23 sets the illegal command or label bit; a bit
/// stays until cleared."
pub fn after_refusal(register: u8, number: Number) -> u8 {
    register
        | match number {
            WRONG_SUM => CHECKSUM,
            UNKNOWN | NO_FILE => ILLEGAL,
            _ => 0,
        }
}

/// The register after these bits came from the port driver: "Parity, framing and
/// time-out bits come from the port driver through a call, which ignores other
/// bits." One that does not come stays as it was.
pub fn after_port(register: u8, bits: u8) -> u8 {
    register | bits & (PARITY | FRAMING | TIME_OUT)
}
