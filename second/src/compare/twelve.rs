//! Twelve notices: written one by one, joined into one frame in each form, and
//! run packed on one board and separately on another.

use std::io::{self, Write};

use crate::board::files::{content_of, walk};
use crate::board::fresh::fresh;
use crate::board::run::{run, REPLY_MARGIN};
use crate::board::Board;
use crate::bytes::{NUL, WRITE_TEXT};
use crate::frame::joining::join;
use crate::frame::translation::MOST_PRINTABLE;
use crate::frame::writing::write;
use crate::numbers::{answered, Number};

const HEADER: &[u8] = b"Z00";
const OWN_TYPE: u8 = b'C';
const MEMORY_LENGTH: usize = 1_024;
const NOTICES: u8 = 12;
/// The form in which each notice is written.
const NOTICE_FORM: u8 = 2;
/// The forms into which the notices are joined.
const FORMS: [u8; 3] = [1, 2, 3];

/// A board and its reply buffer.
#[derive(Clone, Debug, PartialEq, Eq)]
pub struct Sign {
    pub board: Board,
    pub reply: Vec<u8>,
}

/// What came back from one run, or from several added up.
#[derive(Clone, Copy, Debug, Default, PartialEq, Eq)]
pub struct Counts {
    pub number: usize,
    pub done: usize,
    pub refused: usize,
}

impl Sign {
    /// A fresh board that has been given the twelve files; without them where one of
    /// the two is refused.
    pub fn with_files() -> Sign {
        let mut sign = Sign {
            board: Board {
                memory: vec![NUL; MEMORY_LENGTH],
                ..Board::default()
            },
            reply: vec![NUL; MEMORY_LENGTH + REPLY_MARGIN],
        };
        if fresh(&mut sign.board, OWN_TYPE).is_ok() {
            sign.run_all(&[files_frame()]);
        }
        sign
    }

    /// Runs the frames one after the other and adds up what came back.
    pub fn run_all(&mut self, frames: &[Vec<u8>]) -> Counts {
        let mut counts = Counts::default();
        for frame in frames {
            let (number, ran) = answered(run(&mut self.board, &mut self.reply, frame));
            counts.number += usize::from(number);
            counts.done += ran.done;
            counts.refused += ran.refused;
        }
        counts
    }
}

/// Notice 1's label is A, the next one's B, and so on.
fn label_of(notice: u8) -> char {
    char::from(b'A' + (notice - 1))
}

/// The printable frame that gives a board the twelve files.
fn files_frame() -> Vec<u8> {
    let records: String = (1..=NOTICES)
        .map(|notice| format!("{}AU0020FF00", label_of(notice)))
        .collect();
    format!("_01Z00_02E${records}_04").into_bytes()
}

/// The twelve notices, each as a frame of its own.
fn notices() -> Vec<Vec<u8>> {
    (1..=NOTICES).map(notice_frame).collect()
}

/// One notice's frame. A refusal would leave it empty, which no joining takes.
fn notice_frame(notice: u8) -> Vec<u8> {
    let data = format!("{}PERMIT {notice:02} RENEW BY 31 MARCH", label_of(notice));
    output_of(|output| write(NOTICE_FORM, HEADER, WRITE_TEXT, data.as_bytes(), output))
        .unwrap_or_default()
}

/// Notice 1 joined with the next one, the result with the next, to the last;
/// or the number of the first joining that does not answer 0.
fn packed_frame(form: u8) -> Result<Vec<u8>, Number> {
    (2..=NOTICES).try_fold(notice_frame(1), |so_far, notice| {
        output_of(|output| join(form, &so_far, &notice_frame(notice), output))
    })
}

/// What a call puts into a buffer that is long enough, or its number.
fn output_of(call: impl Fn(&mut [u8]) -> Result<usize, Number>) -> Result<Vec<u8>, Number> {
    let mut output = vec![NUL; MOST_PRINTABLE];
    let length = call(&mut output)?;
    output.truncate(length);
    Ok(output)
}

/// Writes the lines of the three forms.
pub fn write_twelve(output: &mut impl Write) -> io::Result<()> {
    for form in FORMS {
        write_form(output, form)?;
    }
    output.flush()
}

/// Writes the lines of one form.
pub fn write_form(output: &mut impl Write, form: u8) -> io::Result<()> {
    writeln!(output, "form {form}")?;
    match packed_frame(form) {
        Ok(packed) => write_runs(output, packed),
        Err(number) => writeln!(output, "join {number}"),
    }
}

/// Runs the packed frame on one board and the notices on another, and writes
/// what came of it.
fn write_runs(output: &mut impl Write, packed: Vec<u8>) -> io::Result<()> {
    writeln!(output, "length {}", packed.len())?;
    let mut packed_sign = Sign::with_files();
    let mut separate_sign = Sign::with_files();
    write_counts(output, "packed", packed_sign.run_all(&[packed]))?;
    write_counts(output, "separate", separate_sign.run_all(&notices()))?;
    write_comparison(output, &packed_sign, &separate_sign)?;
    write_files(output, &packed_sign.board)
}

fn write_counts(output: &mut impl Write, name: &str, counts: Counts) -> io::Result<()> {
    let Counts {
        number,
        done,
        refused,
    } = counts;
    writeln!(output, "{name} {number} {done} {refused}")
}

/// Whether two boards are the same, part by part.
pub fn write_comparison(output: &mut impl Write, one: &Sign, other: &Sign) -> io::Result<()> {
    for (name, is_same, otherwise) in [
        (
            "settings",
            one.board.settings == other.board.settings,
            "differ",
        ),
        ("memory", one.board.memory == other.board.memory, "differs"),
        ("reply", one.reply == other.reply, "differs"),
    ] {
        let word = if is_same { "same" } else { otherwise };
        writeln!(output, "{name} {word}")?;
    }
    Ok(())
}

/// Each file's label and its content without its zeros.
fn write_files(output: &mut impl Write, board: &Board) -> io::Result<()> {
    let (files, _) = walk(&board.memory, board.settings.files).unwrap_or_default();
    for file in files {
        output.write_all(&[file.record.label, b' '])?;
        output.write_all(content_of(&board.memory, &file))?;
        output.write_all(b"\n")?;
    }
    Ok(())
}
