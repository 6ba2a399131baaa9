//! Checking sessions: answers however a file is cut, spent and opened again, and grown past the limit.

mod hand;

use hand::{bitmap_1_1, path_1_0, path_1_4, text_1_2, text_path_1_5};
use second::answer::Answer;
use second::damage::cuts;
use second::damage::fields::of_file;
use second::damage::files;
use second::generate::special::{padded, plain_bitmap, plain_drawing};
use second::model::Object;
use second::pipe;
use second::plans::{marked, plan_a};
use second::random::Random;
use second::read;
use second::session::{LentSession, Session};
use second::table::read_call;
use second::version::{Version, LONGEST_FILE};
use second::write;

/// A session of a kind that has been used before.
fn opened() -> Session {
    let mut session = Session::default();
    session.piece(b"JDR");
    session.verdict();
    assert_eq!(session.open(), Answer::default());
    session
}

fn verdict_in_pieces(file: &[u8], cuts: &[usize]) -> Answer {
    let mut session = opened();
    for piece in cuts::pieces(file, cuts) {
        assert_eq!(session.piece(piece), Answer::default());
    }
    session.verdict()
}

/// The read call with room enough.
fn read_whole(file: &[u8]) -> Answer {
    read_call(file, &mut [0; 40_000], &mut [0; 70_000])
}

fn plain_file(length: usize) -> Vec<u8> {
    let small = plain_drawing(Version::ALL[0], vec![Object::Bitmap(plain_bitmap(1))]);
    write::file(&padded(small, length))
}

#[test]
fn the_marked_plans_have_their_verdicts_at_every_cut() {
    for plan in marked() {
        for cut in 0..=plan.file.len() {
            let answer = verdict_in_pieces(&plan.file, &[cut]);
            assert_eq!((answer.number, answer.offset), (plan.number, plan.offset), "{}", plan.name);
            assert_eq!(answer, read_whole(&plan.file));
        }
    }
    assert_eq!(verdict_in_pieces(&plan_a(), &[7]), Answer::new(0, 82, 2, 20));
}

#[test]
fn files_byte_by_byte_are_read_as_one() {
    for file in [bitmap_1_1(), path_1_0(), path_1_4(), text_1_2(), text_path_1_5()] {
        let answer = verdict_in_pieces(&file, &cuts::every(file.len(), 1));
        assert_eq!((answer.number, answer.offset), (0, file.len() as u32));
        assert_eq!(answer, read_whole(&file));
    }
}

#[test]
fn damaged_files_are_refused_as_the_reader_refuses_them() {
    let drawing = read::drawing(&path_1_4()).unwrap();
    let (file, fields) = (write::file(&drawing), of_file(&drawing));
    let mut random = Random::new(1);
    let mut numbers = Vec::new();
    for _ in 0..2_000 {
        let damaged = files::any(&mut random, &file, &fields);
        let cuts = cuts::any(&mut random, damaged.len());
        let answer = verdict_in_pieces(&damaged, &cuts);
        assert_eq!(answer, read_whole(&damaged));
        numbers.push(answer.number);
    }
    for number in [0, 2, 3, 4, 6, 7, 8, 9, 11, 13] {
        assert!(numbers.contains(&number), "{number}");
    }
}

#[test]
fn a_verdict_is_of_the_bytes_so_far_and_is_repeated() {
    let mut session = opened();
    let file = plan_a();
    session.piece(&file[..40]);
    let first = session.verdict();
    assert_eq!(first, read_whole(&file[..40]));
    assert_eq!(first.number, 2);
    session.piece(&file[40..]);
    assert_eq!(session.verdict(), first);
    session.piece(&[0; LONGEST_FILE + 1]);
    assert_eq!(session.verdict(), first);
    session.open();
    session.piece(&file);
    assert_eq!(session.verdict().number, 0);
    session.piece(&[0]);
    assert_eq!(session.verdict().number, 0);
}

#[test]
fn no_bytes_are_a_file_too() {
    assert_eq!(opened().verdict(), Answer::refused(2, 0));
    assert_eq!(verdict_in_pieces(&[], &[0, 0]), Answer::refused(2, 0));
    let file = plan_a();
    assert_eq!(verdict_in_pieces(&file, &[0, 5, 5, 5, 82]).number, 0);
}

#[test]
fn a_file_too_long_gets_1_whatever_fault_came_before() {
    let too_long = Answer::refused(1, LONGEST_FILE as u32);
    for start in [plan_a(), b"no plan".to_vec(), Vec::new()] {
        let mut long = start;
        long.resize(LONGEST_FILE, 0);
        let cuts = cuts::every(long.len(), 500);
        assert_ne!(verdict_in_pieces(&long, &cuts).number, 1);
        assert_eq!(verdict_in_pieces(&long, &cuts), read_whole(&long));
        for more in [1, 2, 100_000] {
            long.resize(LONGEST_FILE + more, 0);
            assert_eq!(verdict_in_pieces(&long, &cuts), too_long);
        }
    }
}

#[test]
fn a_plan_as_long_as_it_may_be_is_accepted() {
    let cuts = cuts::every(LONGEST_FILE, 700);
    let whole = plain_file(LONGEST_FILE);
    assert_eq!(whole.len(), LONGEST_FILE);
    assert_eq!(verdict_in_pieces(&whole, &cuts).number, 0);
    assert_eq!(verdict_in_pieces(&plain_file(LONGEST_FILE + 1), &cuts).number, 1);
}

#[test]
fn what_no_opening_began_is_told_by_depth_and_bytes() {
    for (depth, bytes, refused) in [
        (0, 0, false),
        (16, 65_536, false),
        (17, 0, true),
        (0, 65_537, true),
        (u32::MAX, 65_536, true),
        (16, u32::MAX, true),
    ] {
        let mut lent = LentSession { words: [7; LentSession::WORDS] };
        lent.words[LentSession::DEPTH] = depth;
        lent.words[LentSession::BYTES] = bytes;
        assert_eq!(lent.is_refused(), refused, "{depth} {bytes}");
    }
}

#[test]
fn pieces_between_cuts_are_the_file() {
    let file: Vec<u8> = (0..100).collect();
    let mut random = Random::new(3);
    let mut empty = false;
    for _ in 0..300 {
        let cuts = cuts::any(&mut random, file.len());
        let pieces = cuts::pieces(&file, &cuts);
        assert_eq!(pieces.len(), cuts.len() + 1);
        assert_eq!(pieces.concat(), file);
        empty |= pieces.iter().any(|piece| piece.is_empty());
    }
    assert!(empty);
    assert_eq!(cuts::every(10, 4), [4, 8]);
    assert_eq!(cuts::every(8, 4), [4]);
}

#[test]
fn a_pipe_is_judged_as_its_file() {
    for most in [1, 7, 512] {
        let line = |file: &[u8]| pipe::line(file, most).unwrap();
        assert_eq!(line(&plan_a()), ("verdict: 0 82 2 20".to_string(), true));
        assert_eq!(line(&plan_a()[..81]), ("verdict: 2 81 0 0".to_string(), false));
        assert_eq!(line(&[0; 70_000]), ("verdict: 1 65535 0 0".to_string(), false));
        assert_eq!(line(&[]), ("verdict: 2 0 0 0".to_string(), false));
    }
}
