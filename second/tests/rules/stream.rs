//! The stream: what is written reads back, what cannot be read ends it, and how the
//! lines are laid out.

use second::compare::stored::{rows, stored};
use second::compare::stream::{cases, replay, Case, CALLS};

#[test]
fn every_stored_case_reads_back() {
    let wanted: Vec<Case> = stored().into_iter().map(|row| row.case).collect();
    let stream: Vec<u8> = wanted.iter().flat_map(Case::encode).collect();
    let read: Option<Vec<Case>> = cases(&stream).collect();
    assert_eq!(read, Some(wanted));
}

/// A case of each call.
fn samples() -> Vec<Vec<u8>> {
    let sample = |call: &u8| {
        let row = stored().into_iter().find(|row| row.case.call() == *call);
        row.expect("a case of each call").case.encode()
    };
    CALLS.iter().map(sample).collect()
}

/// "an input that ends inside a case"
#[test]
fn a_case_cut_anywhere_is_a_bad_case() {
    for sample in samples() {
        for end in 1..sample.len() {
            let (lines, is_whole) = replay(&sample[..end]);
            assert_eq!(
                (lines.as_slice(), is_whole),
                (b"bad case\n".as_slice(), false)
            );
        }
    }
}

/// "an unknown call byte or one whose request has not landed": the lines before it
/// stand, those after it do not come.
#[test]
fn an_unknown_call_byte_ends_the_stream() {
    let weekday = b"Y\x07\xD0\x01\x01";
    for call in (0..=255).filter(|call| !CALLS.contains(call)) {
        let stream = [weekday.as_slice(), &[call], weekday].concat();
        let (lines, is_whole) = replay(&stream);
        assert_eq!(lines, b"0 7\nbad case\n");
        assert!(!is_whole);
    }
}

/// "settings of another length"
#[test]
fn settings_of_another_length_are_a_bad_case() {
    for length in [0u16, 10, 203, 205] {
        let mut stream = vec![b'P'];
        stream.extend(length.to_be_bytes());
        stream.extend(vec![0; usize::from(length) + 1]);
        assert_eq!(replay(&stream).0, b"bad case\n");
    }
}

/// "A line for each case, ended by LF, its fields parted by single spaces; numbers in
/// decimal, strings in upper-case hex, an empty string as `-`."
#[test]
fn lines_are_laid_out_as_the_stream_says() {
    let line = |row: &str| {
        let rows = rows("a row", &format!("{row}  => 0"));
        String::from_utf8(rows[0].case.clone().answer().line()).expect("text")
    };
    let none = "FFFF".repeat(95);
    let zeros = "00".repeat(64);
    let index = "FFFF".repeat(33) + "0000" + &"FFFF".repeat(61);
    let file = "414155303030384646303058".to_string() + &"00".repeat(52);
    let reply = "AA".repeat(128);
    for (row, wanted) in [
        (
            "N  C  64",
            format!("0 0 0 1 1 0 83 0 0 67 0 64 {none} 0 64 {zeros}\n"),
        ),
        (
            "N  Z  3",
            format!(
                "10 0 0 0 0 0 0 0 0 0 0 0 {} 0 0 AAAAAA\n",
                "0000".repeat(95)
            ),
        ),
        (
            "R  64 +AAU0008FF00=X hour=9 offset=-3  Z00^E711^AB",
            format!("0 1 1 2 23 0 9 0 1 1 0 83 0 17 67 1 45 {index} -3 96 {file} {reply}\n"),
        ),
        (
            "W  1  Z00  E4  14",
            "0 13 0000000000015A303002453404AA\n".to_string(),
        ),
        ("F  2  =A  0", "4 0 -\n".to_string()),
        ("J  1  Z00^E4  Z00^E4  2", "14 0 AAAA\n".to_string()),
        ("D  2001-1-31  1", "0 2001 2 28\n".to_string()),
        ("D  2001-2-29  1", "30 0 0 0\n".to_string()),
        ("Y  2000-1-1", "0 7\n".to_string()),
        ("B  2000-1-2  2000-1-1", "0 -1\n".to_string()),
        ("T  -9  -128", "0 -137\n".to_string()),
        (
            "P  64 register=0  7",
            format!("1 0 0 1 1 0 83 0 0 67 0 64 {none} 0 0\n"),
        ),
    ] {
        assert_eq!(line(row), wanted, "{row}");
    }
}
