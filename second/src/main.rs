//! The program: `replay`, `cases`, `stored` and `twelve`.
#![forbid(unsafe_code)]

use std::env;
use std::io::{self, Read, Write};
use std::process::ExitCode;

use second::compare::random::random_cases;
use second::compare::stored::stored;
use second::compare::stream::{replay, Case};
use second::compare::twelve::write_twelve;

const USAGE: &str = "\
usage: second replay                     cases in, lines out
       second cases --seed S --count N   random cases
       second stored                     the stored cases
       second twelve                     the twelve notices
";

fn main() -> ExitCode {
    let arguments: Vec<String> = env::args().skip(1).collect();
    let arguments: Vec<&str> = arguments.iter().map(String::as_str).collect();
    match perform(&arguments) {
        Ok(()) => ExitCode::SUCCESS,
        Err(error) => {
            eprintln!("second: {error}");
            ExitCode::FAILURE
        }
    }
}

fn perform(arguments: &[&str]) -> io::Result<()> {
    let mut output = io::stdout().lock();
    match arguments {
        ["replay"] => replay_whole(&mut output)?,
        ["cases", "--seed", seed, "--count", count] => {
            let cases = random_cases(number(seed)?).take(number(count)? as usize);
            write_cases(&mut output, cases)?;
        }
        ["stored"] => write_cases(&mut output, stored().into_iter().map(|row| row.case))?,
        ["twelve"] => write_twelve(&mut output)?,
        _ => return Err(io::Error::other(USAGE)),
    }
    output.flush()
}

fn number(text: &str) -> io::Result<u64> {
    text.parse().map_err(io::Error::other)
}

fn write_cases(output: &mut impl Write, cases: impl Iterator<Item = Case>) -> io::Result<()> {
    for case in cases {
        output.write_all(&case.encode())?;
    }
    Ok(())
}

/// Replays standard input. A case that cannot be read is an error of the
/// program too, so that a stream cut short is not taken for a whole one.
fn replay_whole(output: &mut impl Write) -> io::Result<()> {
    let mut stream = Vec::new();
    io::stdin().lock().read_to_end(&mut stream)?;
    let (lines, is_whole) = replay(&stream);
    output.write_all(&lines)?;
    if is_whole {
        Ok(())
    } else {
        Err(io::Error::other(
            "the stream ends at a case that cannot be read",
        ))
    }
}
