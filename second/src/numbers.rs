//! "The numbers that come back", each under a name.

pub type Number = u8;

/// "frame run, written, re-formed or joined; fresh board made"
pub const DONE: Number = 0;
/// "board not sound"; request 9: "1 for an offset outside -9 to 9, from the call
/// too"; request 10: "1 for a register whose fixed bits are not as the table has
/// them"
pub const NOT_SOUND: Number = 1;
/// "reply buffer shorter than memory plus 64"
pub const SHORT_REPLY_BUFFER: Number = 2;
/// "input empty, over 8,192 bytes standard or 24,576 printable, or over 8,192 translated"
pub const BAD_LENGTH: Number = 3;
/// "wrong first byte or lead"
pub const BAD_LEAD: Number = 4;
/// "printable: bad escape or byte outside 20H to 7EH"
pub const BAD_PRINTABLE: Number = 5;
/// "bad header, or "z""; request 11: "6 stays for "z" beside other pairs"
pub const BAD_HEADER: Number = 6;
/// "bad body"
pub const BAD_BODY: Number = 7;
/// "a read that is not last"
pub const READ_NOT_LAST: Number = 8;
/// "not addressed"
pub const NOT_ADDRESSED: Number = 9;
/// "fresh board: wrong type"
pub const WRONG_TYPE: Number = 10;
/// "wrong memory length"
pub const WRONG_MEMORY: Number = 11;
/// "join: header texts differ"
pub const HEADERS_DIFFER: Number = 12;
/// "first frame has a read"
pub const FIRST_HAS_READ: Number = 13;
/// "output buffer too short"
pub const SHORT_OUTPUT: Number = 14;
/// "form not 1, 2 or 3"
pub const WRONG_FORM: Number = 15;
/// "command or data byte below 05H"
pub const LOW_BYTE: Number = 16;
/// "input has a wrong checksum"
pub const WRONG_SUM_IN_INPUT: Number = 17;
/// "result over 8,192 translated bytes or 64 blocks"
pub const RESULT_TOO_LONG: Number = 18;
/// Request 11: "19, joining a "z" header"
pub const JOINS_FIRST_START: Number = 19;
/// "block: wrong checksum"
pub const WRONG_SUM: Number = 20;
/// "unknown command byte or function label"
pub const UNKNOWN: Number = 21;
/// "data missing, in excess, or malformed"
pub const MALFORMED: Number = 22;
/// "no file of that label and type"
pub const NO_FILE: Number = 23;
/// "message longer than SIZE"
pub const MESSAGE_TOO_LONG: Number = 24;
/// ""$": bad record, count or length"
pub const BAD_LIST: Number = 25;
/// "label twice"
pub const LABEL_TWICE: Number = 26;
/// "no room"
pub const NO_ROOM: Number = 27;
/// Request 11: "28, memory below 4,186 bytes"
pub const NO_ROOM_TO_START: Number = 28;
/// Request 6: "30 for a date that does not exist"
pub const NO_SUCH_DATE: Number = 30;
/// Request 6: "31 for a count outside its range"
pub const WRONG_COUNT: Number = 31;
/// Request 6: "32 for a result outside 2000 to 2099"
pub const RESULT_OUTSIDE: Number = 32;
/// Request 9: "33 for a reading outside its range"
pub const WRONG_READING: Number = 33;

/// The number and the value of a call that answers a refusal with zeros: request
/// 6, "all answer with zeros"; request 9, "in both the call answers 0".
pub fn answered<T: Default>(result: Result<T, Number>) -> (Number, T) {
    match result {
        Ok(value) => (DONE, value),
        Err(number) => (number, T::default()),
    }
}
