//! Damaged sheets: what is no sheet is refused, and what is accepted is a sheet.

mod hand;

use hand::{bitmap_1_1, path_1_0, path_1_4, text_1_2, text_path_1_5};
use second::answer::Answer;
use second::check;
use second::damage::fields::of_bodies;
use second::damage::sheets::{any, every, other_numbers, wrapped, wrong_words, Named};
use second::generate::special::{empty_to_depth, sampler};
use second::generate::{self, chars};
use second::model::Drawing;
use second::plans::plan_a;
use second::random::Random;
use second::read;
use second::sheet::{read_call, write_call, EDITION};
use second::table::{self, Table};
use second::version::Version;

/// Small drawings of every version, those put together by hand among them.
fn drawings() -> Vec<Drawing> {
    let hand = [plan_a(), path_1_0(), bitmap_1_1(), text_1_2(), path_1_4(), text_path_1_5()];
    let hand = hand.iter().map(|file| read::drawing(file).unwrap());
    let seeds = (0..5).flat_map(|seed| Version::ALL.map(|version| generate::drawing(seed, version, 400)));
    let empty = Version::ALL.into_iter().flat_map(|version| {
        let to_depth = [1, 2, 3].map(|depth| empty_to_depth(version, depth, &chars("bay")));
        to_depth.into_iter().chain((0..3).map(move |seed| generate::with_empty_groups(seed, version, 400)))
    });
    hand.chain(seeds).chain(empty).collect()
}

fn refused(all: Named) {
    for (what, sheet) in all {
        let (mut contents, mut bodies) = (vec![7; 4_000], vec![7; 4_000]);
        assert_eq!(read_call(&sheet, &mut contents, &mut bodies), Answer::refused(19, 0), "{what}");
        assert!(contents.iter().chain(&bodies).all(|word| *word == 7), "{what}");
    }
}

#[test]
fn cuts_counts_rows_and_orders() {
    for drawing in drawings() {
        let all = every(&table::of(&drawing));
        assert!(all.len() > 45, "{}", all.len());
        refused(all);
    }
}

#[test]
fn every_number_of_the_contents() {
    for drawing in drawings() {
        let table = table::of(&drawing);
        (0..table.contents.len()).for_each(|place| refused(other_numbers(&table, place)));
    }
}

#[test]
fn words_that_are_no_value_of_their_field() {
    let samplers = Version::ALL.map(|version| sampler(6, version));
    for drawing in drawings().iter().take(12).chain(&samplers) {
        let table = table::of(drawing);
        of_bodies(drawing).iter().for_each(|field| refused(wrong_words(&table, field)));
    }
}

#[test]
fn more_rows_and_words_than_a_count_can_say() {
    let table = table::of(&read::drawing(&plan_a()).unwrap());
    for times in [1, 2, 3] {
        let all = wrapped(&table, times);
        let rows = 2 + times * 65_536;
        assert_eq!(all[0].1.len(), 4 + rows * 8 + 20 * 4);
        for (what, sheet) in &all {
            assert_eq!(sheet[..4], [0, 2, 0, 20], "{what}: the counts are again the table's");
        }
        refused(all);
    }
}

/// Whatever was done: accepted bytes are the sheet of the table that they give, and refused ones hold no good table.
#[test]
fn what_is_accepted_is_a_sheet() {
    let mut accepted = 0;
    let mut refused = 0;
    for (drawing, seed) in drawings().iter().zip(0..) {
        let mut random = Random::new(seed);
        let (table, fields) = (table::of(drawing), of_bodies(drawing));
        for _ in 0..600 {
            let sheet = any(&mut random, &table, &fields);
            let (mut contents, mut bodies) = (vec![7; 4_000], vec![7; 4_000]);
            let answer = read_call(&sheet, &mut contents, &mut bodies);
            if answer.number == 0 {
                contents.truncate(4 * answer.rows as usize);
                bodies.truncate(answer.words as usize);
                let good = check::good(&contents, &bodies);
                let mut again = vec![0; sheet.len()];
                assert_eq!(write_call(good.as_ref(), &mut again), answer);
                assert!(again == sheet);
                accepted += 1;
            } else {
                assert_eq!(answer, Answer::refused(19, 0));
                let is_good = |table: Table| check::good(&table.contents, &table.bodies).is_some();
                assert!(!EDITION.table(&sheet).is_some_and(is_good));
                refused += 1;
            }
        }
    }
    assert!(accepted > 500 && refused > 10_000, "{accepted} {refused}");
}
