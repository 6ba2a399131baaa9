//! The marked plans of 01, its table and its lister lines, word for word.

use second::answer::Answer;
use second::plans::{marked, plan_a};
use second::table::{self, read_call};
use second::{lister, read};

const ONE: u32 = 0x3FF0_0000;

const CONTENTS: [u32; 8] = [1, 0, 18, 2, 4, 0, 2, 16];
#[rustfmt::skip]
const BODIES: [u32; 20] = [
    0, 0, // 1.0, settings 0
    1, 0x61, 0, // name `a`, flag 0
    ONE, 0, 0, 0, 0, 0, ONE, 0, 0, 0, 0, 0, // 1 0 0 1 0 0
    0, // the bitmap's flow flag
    1, 0, // the group's n and flow flag
];

#[test]
fn plan_a_stands_as_01_says() {
    let file = plan_a();
    assert_eq!(file.len(), 82);
    assert_eq!(file[..18], *b"\0J\0D\0R\0\0\0\x03\x001\0.\x000\0\0");
    assert_eq!(file[17..19], *b"\0G");
    assert_eq!(file[19..23], [0, 0, 0, 1]);
    assert_eq!(file[23..25], *b"\0I");
    assert_eq!(file[25..29], [0, 0, 0, 1]);
    assert_eq!(file[29..32], *b"\0a\0");
    assert_eq!(file[32..40], 1.0f64.to_be_bytes());
    assert_eq!(file[80..], [0, 0]);
}

#[test]
fn m1_gives_its_table() {
    let mut contents = [7; 9];
    let mut bodies = [7; 21];
    let answer = read_call(&plan_a(), &mut contents, &mut bodies);
    assert_eq!(answer, Answer::new(0, 82, 2, 20));
    assert_eq!(contents[..8], CONTENTS);
    assert_eq!(bodies[..20], BODIES);
    assert_eq!((contents[8], bodies[20]), (7, 7));
}

#[test]
fn m2_to_m13_have_their_numbers() {
    for plan in marked() {
        let answer = match read::drawing(&plan.file) {
            Ok(_) => (0, plan.file.len() as u32),
            Err(refusal) => (refusal.number, refusal.offset),
        };
        assert_eq!(answer, (plan.number, plan.offset), "{}", plan.name);
    }
}

fn read_with(contents: usize, bodies: usize) -> Answer {
    let mut contents = vec![7; contents];
    let mut bodies = vec![7; bodies];
    let answer = read_call(&plan_a(), &mut contents, &mut bodies);
    if answer.number != 0 {
        assert!(contents.iter().chain(&bodies).all(|word| *word == 7));
    }
    answer
}

#[test]
fn m14_rooms() {
    assert_eq!(read_with(4, 20), Answer::new(14, 82, 2, 20));
    assert_eq!(read_with(8, 19), Answer::new(15, 82, 2, 20));
    assert_eq!(read_with(8, 20), Answer::new(0, 82, 2, 20));
    // Room is whole rows, and 14 comes before 15.
    assert_eq!(read_with(7, 20), Answer::new(14, 82, 2, 20));
    assert_eq!(read_with(0, 0), Answer::new(14, 82, 2, 20));
    assert_eq!(read_with(8, 0), Answer::new(15, 82, 2, 20));
}

#[test]
fn m13_comes_before_small_rooms() {
    let mut file = plan_a();
    file.push(0);
    assert_eq!(read_call(&file, &mut [], &mut []), Answer::refused(13, 82));
}

#[test]
fn the_lister_prints_plan_a() {
    let table = read::drawing(&plan_a()).map(|drawing| table::of(&drawing)).unwrap();
    assert_eq!(lister::lines(&table), "1.0 2 20\n0 G 0 18 2\n1 I 0 2 16\n");
}
