//! What the documents promise of every case, over random ones: what a refusal leaves,
//! what is read back, and that a joined frame does what the two do in turn.

use second::board::commands::run_block;
use second::board::run::{run, Ran};
use second::board::settings::Settings;
use second::board::soundness::is_sound;
use second::board::Board;
use second::compare::answer::Given;
use second::compare::random::random_cases;
use second::compare::stream::Case;
use second::frame::header::capitals;
use second::frame::joining::join;
use second::frame::lead::after_lead;
use second::frame::reading::read;
use second::frame::reforming::reform;
use second::frame::translation::{translate, MOST_PRINTABLE};
use second::frame::writing::write;
use second::numbers::answered;

const SEED: u64 = 36;
const COUNT: usize = 3_000;

/// A header in capitals and the commands behind it.
type Meaning = (Vec<u8>, Vec<(u8, Vec<u8>)>);

/// What a frame says, whatever its form; none where it does not read.
fn meaning(frame: &[u8]) -> Option<Meaning> {
    let translated = translate(frame).ok()?;
    let frame = read(&translated).ok()?;
    let blocks = frame
        .blocks
        .iter()
        .map(|block| (block.command, block.data.to_vec()));
    Some((capitals(frame.header), blocks.collect()))
}

/// What a call puts into a buffer that is long enough.
fn output_of(call: impl Fn(&mut [u8]) -> Result<usize, u8>) -> Option<Vec<u8>> {
    let mut output = vec![0; MOST_PRINTABLE];
    let length = call(&mut output).ok()?;
    output.truncate(length);
    Some(output)
}

/// The runs among the random cases, on sound boards with a good reply buffer.
fn runs() -> impl Iterator<Item = (Board, Vec<u8>, Vec<u8>)> {
    random_cases(SEED)
        .take(COUNT)
        .filter_map(|case| match case {
            Case::Run {
                board,
                reply,
                frame,
            } if is_sound(&board) => Some((board, reply, frame)),
            _ => None,
        })
}

/// Asserts that a law was seen at work so often, so that it does not hold of nothing.
fn assert_often(count: usize, least: usize) {
    assert!(count >= least, "only {count} cases");
}

#[test]
fn a_refused_call_leaves_everything_as_it_was() {
    let mut refused = 0;
    for case in random_cases(SEED).take(COUNT) {
        let answer = case.clone().answer();
        if answer.number == 0 {
            continue;
        }
        refused += 1;
        match (case, answer.given) {
            (Case::Fresh { memory, .. }, Given::Board(after)) => {
                assert_eq!(
                    after,
                    Board {
                        settings: Settings::default(),
                        memory
                    }
                );
            }
            (
                Case::Run { board, reply, .. },
                Given::Run {
                    ran,
                    board: after,
                    reply: replied,
                },
            ) => {
                assert_eq!((ran, after, replied), (Ran::default(), board, reply));
            }
            (
                Case::Write { output, .. }
                | Case::Reform { output, .. }
                | Case::Join { output, .. },
                Given::Output {
                    length,
                    output: after,
                },
            ) => assert_eq!((length, after), (0, output)),
            (_, Given::Date(date)) => assert_eq!((date.year, date.month, date.day), (0, 0, 0)),
            (_, Given::Value(value)) => assert_eq!(value, 0),
            (Case::Port { settings, .. }, Given::Settings(after)) => assert_eq!(after, settings),
            (case, given) => panic!("{case:?} answers {given:?}"),
        }
    }
    assert_often(refused, 500);
}

#[test]
fn a_sound_board_stays_sound_and_every_block_is_counted() {
    let mut done = 0;
    for (mut board, mut reply, frame) in runs() {
        if let Ok(ran) = run(&mut board, &mut reply, &frame) {
            let (_, blocks) = meaning(&frame).expect("a frame that ran");
            assert_eq!(ran.done + ran.refused, blocks.len());
            assert!(is_sound(&board));
            done += ran.done;
        }
    }
    assert_often(done, 1_000);
}

/// "A refused block now changes nothing but this register": its bit for 20, that for 21
/// and 23, and nothing for the others.
#[test]
fn a_refused_block_changes_nothing_but_the_register() {
    let mut refused = 0;
    for (mut board, _, raw) in runs() {
        let Ok(translated) = translate(&raw) else {
            continue;
        };
        let Ok(frame) = read(&translated) else {
            continue;
        };
        for block in &frame.blocks {
            let mut meant = board.clone();
            if let Err(number) = run_block(&mut board, block) {
                meant.settings.register |= match number {
                    20 => 0x10,
                    21 | 23 => 0x20,
                    _ => 0,
                };
                assert_eq!(board, meant);
                refused += 1;
            }
        }
    }
    assert_often(refused, 500);
}

/// Request 11: the board "first gets, as by "$", files A to Z of 150 bytes each, TEXT,
/// unlocked, always shown (start FF, stop 00), and then runs the blocks".
#[test]
fn a_first_start_does_what_a_list_and_the_same_blocks_do_in_turn() {
    let files = (b'A'..=b'Z').flat_map(|label| [&[label], b"AU0096FF00".as_slice()].concat());
    let list: Vec<u8> = [b'$'].into_iter().chain(files).collect();
    let mut count = 0;
    for (board, reply, frame) in runs() {
        let Some((header, _)) = meaning(&frame) else {
            continue;
        };
        if header[0] != b'z' {
            continue;
        }
        let (mut started, mut reply_of_start) = (board.clone(), reply.clone());
        let ran = answered(run(&mut started, &mut reply_of_start, &frame));
        if matches!(ran.0, 0 | 28) {
            assert_eq!(ran.0 == 0, board.memory.len() >= 4_186);
        }
        if ran.0 != 0 {
            continue;
        }
        // The same frame under type "Z", behind a list.
        let translated = translate(&frame).expect("a frame that ran");
        let after = after_lead(&translated.bytes, translated.way).expect("a lead");
        let same = [b"\0\0\0\0\0\x01Z", &after[1..]].concat();
        let header = [b"Z", &header[1..]].concat();
        let first = output_of(|output| write(1, &header, b'E', &list, output)).expect("a list");
        let (mut board, mut reply) = (board, reply);
        assert_eq!(answered(run(&mut board, &mut reply, &first)).1.done, 1);
        assert_eq!(answered(run(&mut board, &mut reply, &same)), ran);
        assert_eq!((board, reply), (started, reply_of_start));
        count += 1;
    }
    assert_often(count, 20);
}

#[test]
fn what_is_written_or_re_formed_reads_back() {
    let mut count = 0;
    for case in random_cases(SEED).take(COUNT) {
        match case {
            Case::Write {
                form,
                header,
                command,
                data,
                ..
            } => {
                let Some(frame) = output_of(|output| write(form, &header, command, &data, output))
                else {
                    continue;
                };
                let meant = (capitals(&header), vec![(command, data)]);
                assert_eq!(meaning(&frame), Some(meant));
                count += 1;
            }
            Case::Reform { form, frame, .. } => {
                let Some(once) = output_of(|output| reform(form, &frame, output)) else {
                    continue;
                };
                assert_eq!(meaning(&once), meaning(&frame));
                let again = output_of(|output| reform(form, &once, output));
                assert_eq!(again, Some(once));
                count += 1;
            }
            _ => {}
        }
    }
    assert_often(count, 200);
}

#[test]
fn a_joined_frame_has_the_blocks_of_both_in_order() {
    let mut count = 0;
    for case in random_cases(SEED).take(COUNT) {
        let Case::Join {
            form,
            first,
            second,
            ..
        } = case
        else {
            continue;
        };
        let Some(joined) = output_of(|output| join(form, &first, &second, output)) else {
            continue;
        };
        let (header, mut blocks) = meaning(&first).expect("the first");
        let (_, more) = meaning(&second).expect("the second");
        blocks.extend(more);
        assert_eq!(meaning(&joined), Some((header, blocks)));
        count += 1;
    }
    assert_often(count, 100);
}

/// Demand 3, over frames for one board: "running the joined frame leaves the same
/// settings, memory and reply buffer as running the first and then the second, in
/// whichever form; blocks done and refused are the sums".
#[test]
fn a_joined_frame_does_what_the_two_do_in_turn() {
    let mut count = 0;
    let mut former: Option<Vec<u8>> = None;
    for (board, reply, frame) in runs() {
        let first = former.replace(frame.clone());
        let (Some(first), Some((header, blocks))) = (first, meaning(&frame)) else {
            continue;
        };
        // The blocks of the frame before, under this one's header.
        let Some((_, others)) = meaning(&first) else {
            continue;
        };
        let others = others.into_iter().take(8).filter_map(|(command, data)| {
            output_of(|output| write(1, &header, command, &data, output))
        });
        for form in 1..=3 {
            for other in others.clone() {
                let Some(joined) = output_of(|output| join(form, &other, &frame, output)) else {
                    continue;
                };
                let (mut packed, mut packed_reply) = (board.clone(), reply.clone());
                let (mut apart, mut apart_reply) = (board.clone(), reply.clone());
                let once = answered(run(&mut packed, &mut packed_reply, &joined));
                let one = answered(run(&mut apart, &mut apart_reply, &other));
                if apart.settings.address != board.settings.address {
                    continue;
                }
                let two = answered(run(&mut apart, &mut apart_reply, &frame));
                assert_eq!((packed, packed_reply), (apart, apart_reply));
                assert_eq!(once.0, one.0);
                assert_eq!(once.1.done, one.1.done + two.1.done);
                assert_eq!(once.1.refused, one.1.refused + two.1.refused);
                count += usize::from(once.1.done > 1 && !blocks.is_empty());
            }
        }
    }
    assert_often(count, 200);
}
