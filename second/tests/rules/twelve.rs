//! The twelve notices, packed and one by one.

use second::compare::twelve::{write_comparison, write_twelve, Sign};

#[test]
fn twelve_packed_notices_do_what_twelve_separate_ones_do() {
    let mut output = Vec::new();
    write_twelve(&mut output).expect("a vector takes all");
    let text = String::from_utf8(output).expect("text");
    for word in [
        "packed 0 12 0",
        "separate 0 12 0",
        "settings same",
        "memory same",
        "reply same",
        "A PERMIT 01 RENEW BY 31 MARCH",
        "L PERMIT 12 RENEW BY 31 MARCH",
    ] {
        assert_eq!(
            text.lines().filter(|line| *line == word).count(),
            3,
            "{word}"
        );
    }
    assert!(!text.contains("differ"));
}

#[test]
fn signs_that_differ_are_told_apart() {
    let sign = Sign::with_files();
    type Change = (&'static str, fn(&mut Sign));
    let changes: [Change; 3] = [
        ("settings differ", |sign| sign.board.settings.hour = 1),
        ("memory differs", |sign| sign.board.memory[1_023] = 1),
        ("reply differs", |sign| sign.reply[0] = 1),
    ];
    for (word, change) in changes {
        let mut other = sign.clone();
        change(&mut other);
        let mut output = Vec::new();
        write_comparison(&mut output, &sign, &other).expect("a vector takes all");
        let text = String::from_utf8(output).expect("text");
        assert!(text.lines().any(|line| line == word), "{text}");
        assert_eq!(text.matches("same").count(), 2);
    }
}
