//! The bytes of the protocol under their names.

pub const NUL: u8 = 0x00;
pub const SOH: u8 = 0x01;
pub const STX: u8 = 0x02;
pub const ETX: u8 = 0x03;
pub const EOT: u8 = 0x04;

/// "Both are bytes 05H to FFH": the lowest command, data or content byte.
pub const LOWEST_DATA: u8 = 0x05;

/// The "_" that opens an escape and a printable frame.
pub const UNDERSCORE: u8 = 0x5F;
/// The lowest and the highest byte of a printable frame.
pub const LOWEST_PRINTABLE: u8 = 0x20;
pub const HIGHEST_PRINTABLE: u8 = 0x7E;

/// Joins the pairs of a header and parts the two numbers of "#".
pub const COMMA: u8 = b',';
/// The header's address character that stands for any digit.
pub const ANY_DIGIT: u8 = b'?';
/// Either digit of the address "00", which fits every board.
pub const ZERO_DIGIT: u8 = b'0';

pub const WRITE_TEXT: u8 = b'A';
pub const READ_TEXT: u8 = b'B';
pub const WRITE_SPECIAL: u8 = b'E';
pub const READ_SPECIAL: u8 = b'F';
pub const WRITE_STRING: u8 = b'G';
pub const READ_STRING: u8 = b'H';
pub const READ_PICTURE: u8 = b'J';
pub const READ_LARGE_PICTURE: u8 = b'N';

pub const TIME: u8 = 0x20;
pub const SPEAKER: u8 = b'!';
pub const POOL: u8 = b'#';
pub const CONFIGURATION: u8 = b'$';
pub const TIME_FORMAT: u8 = b'\'';
pub const SERIAL_ADDRESS: u8 = b'7';
pub const DATE: u8 = b';';
pub const TEMPERATURE_OFFSET: u8 = b'T';
pub const CLEAR_REGISTER: u8 = b'4';
pub const READ_REGISTER: u8 = b'*';

/// The two signs of a temperature offset.
pub const PLUS: u8 = b'+';
pub const MINUS: u8 = b'-';
