//! The list call, the paint question, the text question and the text to show.

mod hand;

use hand::{bitmap_1_1, empty_1_0, empty_1_2, path_1_0, path_1_4, text_1_2, text_path_1_5};
use second::answer::{Answer, DescriptionAnswer, TextAnswer};
use second::ask::{description, paint, shown, text};
use second::check::{good, Good};
use second::generate::special::{of_depth, sampler};
use second::generate::{self, chars};
use second::list::{self, entries, groups_around, parents_followed};
use second::model::Object;
use second::version::Version;
use second::{read, table};

fn table_of(file: &[u8]) -> Good {
    let table = table::of(&read::drawing(file).unwrap());
    good(&table.contents, &table.bodies).unwrap()
}

#[test]
fn labels_by_hand() {
    let good = table_of(&text_1_2());
    assert_eq!(entries(&good.drawing, &chars("m")), [1]);
    assert_eq!(entries(&good.drawing, &[]), [0]);
    assert_eq!(entries(&good.drawing, &chars("mm")), [0; 0]);
    let good = table_of(&path_1_4());
    assert_eq!(entries(&good.drawing, &chars("m")), [0]);
    let good = table_of(&text_path_1_5());
    assert_eq!(entries(&good.drawing, &chars("m")), [1]);
    let below = table_of(&bitmap_1_1());
    assert_eq!(entries(&below.drawing, &[]), [0, 1, 2, 3]);
    assert_eq!(entries(&below.drawing, &chars("m")), [0; 0]);
    assert_eq!(groups_around(&below.drawing), [vec![], vec![0], vec![1, 0], vec![0]]);
}

#[test]
fn empty_groups_are_listed_by_their_label() {
    let good = table_of(&empty_1_2());
    assert_eq!(entries(&good.drawing, &chars("bay")), [1, 3]);
    assert_eq!(entries(&good.drawing, &[]), [0, 2, 4]);
    assert_eq!(groups_around(&good.drawing), [vec![], vec![0], vec![0], vec![2, 0], vec![0]]);
    let mut lent = [9; 3];
    assert_eq!(list::call(Some(&good), &chars("bay"), &mut lent), Answer::new(0, 0, 2, 0));
    assert_eq!(lent, [1, 3, 9]);
    let smallest = table_of(&empty_1_0());
    assert_eq!(list::call(Some(&smallest), &[], &mut lent), Answer::new(0, 0, 1, 0));
    assert_eq!(lent, [0, 3, 9]);
    assert_eq!(list::call(Some(&smallest), &chars("bay"), &mut []), Answer::new(0, 0, 0, 0));
}

#[test]
fn parents_lead_out_as_the_file_nests() {
    for seed in 0..50 {
        for version in Version::ALL {
            for make in [generate::drawing, generate::with_empty_groups] {
                let drawing = make(seed, version, 800);
                let contents = table::of(&drawing).contents;
                for (row, around) in groups_around(&drawing).iter().enumerate() {
                    assert_eq!(parents_followed(&contents, row as u32), *around);
                }
            }
        }
    }
    let deep = of_depth(Version::ALL[2], 16, &chars("d"));
    assert_eq!(entries(&deep, &chars("d")), (0..17).collect::<Vec<u32>>());
    let inwards: Vec<u32> = (0..16).rev().collect();
    assert_eq!(groups_around(&deep)[16], inwards);
}

#[test]
fn the_listing_answers_by_its_room() {
    let table = table_of(&bitmap_1_1());
    let mut lent = [9; 5];
    assert_eq!(list::call(Some(&table), &[], &mut lent), Answer::new(0, 0, 4, 0));
    assert_eq!(lent, [0, 1, 2, 3, 9]);
    let mut short = [9; 3];
    assert_eq!(list::call(Some(&table), &[], &mut short), Answer::refused(18, 4));
    assert_eq!(short, [9; 3]);
    assert_eq!(list::call(Some(&table), &[1], &mut []), Answer::new(0, 0, 0, 0));
    assert_eq!(list::call(None, &[], &mut short), Answer::refused(16, 0));
}

#[test]
fn paints_by_hand() {
    let good = table_of(&path_1_4());
    let line = paint(Some(&good), 1, 0);
    let hue = 359.0f32.to_bits();
    let (one, half) = (1.0f32.to_bits(), 0.5f32.to_bits());
    assert_eq!(line.words(), [0, 0, 0, 4, hue, 0, one, half, 0, 0, 0, 0, 0, 0, 0]);
    let fill = paint(Some(&good), 1, 1);
    assert_eq!(fill.words(), [0, 2, 8, 3, half, 0x8000_0000, 0, 0, 0, 0, 0, 0, 0, 0, 0]);
    let below = table_of(&path_1_0());
    let quarter = 0.25f32.to_bits();
    assert_eq!(paint(Some(&below), 1, 0).words(), [0; 15]);
    assert_eq!(paint(Some(&below), 1, 1).words()[3..9], [1, 0, quarter, half, one, 0]);
    let text = table_of(&text_1_2());
    assert_eq!(paint(Some(&text), 1, 2).words()[3..9], [2, 0, 0, 0, 0, one]);
    let along = table_of(&text_path_1_5());
    assert_eq!(paint(Some(&along), 1, 2).words(), [0, 0, 0, 3, half, one, 0, 0, 0, 0, 0, 0, 0, 0, 0]);
}

#[test]
fn refused_questions() {
    let path = table_of(&path_1_0());
    let refused = |number: u32| {
        let mut words = [0; 15];
        words[0] = number;
        words
    };
    assert_eq!(paint(None, 9, 9).words(), refused(16));
    assert_eq!(paint(Some(&path), 2, 9).words(), refused(6));
    assert_eq!(paint(Some(&path), u32::MAX, 0).words(), refused(6));
    assert_eq!(paint(Some(&path), 1, 2).words(), refused(7));
    assert_eq!(paint(Some(&path), 1, 3).words(), refused(7));
    assert_eq!(paint(Some(&path), 0, 0).words(), refused(7));
    assert_eq!(text(None, 0), TextAnswer::refused(16));
    assert_eq!(text(Some(&path), 2), TextAnswer::refused(6));
    assert_eq!(text(Some(&path), 1), TextAnswer::refused(7));
    assert_eq!(text(Some(&path), 0), TextAnswer::refused(7));
    let along = table_of(&text_path_1_5());
    for which in [0, 1, 3] {
        assert_eq!(paint(Some(&along), 1, which).words(), refused(7));
    }
    assert_eq!(paint(Some(&along), 2, 2).words(), refused(6));
    let smallest = table_of(&empty_1_0());
    for which in 0..4 {
        assert_eq!(paint(Some(&smallest), 0, which).words(), refused(7));
        assert_eq!(paint(Some(&smallest), 1, which).words(), refused(6));
    }
    assert_eq!([0, 1].map(|row| text(Some(&smallest), row)), [7, 6].map(TextAnswer::refused));
}

#[test]
fn text_places_by_hand() {
    let good = table_of(&text_1_2());
    let places = TextAnswer {
        number: 0,
        alternative_start: 43,
        alternative_length: 0,
        text_start: 50,
        text_length: 2,
    };
    assert_eq!(text(Some(&good), 1), places);
    let good = table_of(&text_path_1_5());
    let places = TextAnswer {
        number: 0,
        alternative_start: 31,
        alternative_length: 1,
        text_start: 33,
        text_length: 2,
    };
    assert_eq!(text(Some(&good), 1), places);
}

#[test]
fn places_hold_the_chars() {
    for version in Version::ALL {
        let drawing = sampler(8, version);
        let table = table::of(&drawing);
        let good = good(&table.contents, &table.bodies).unwrap();
        let run = |start: u32, length: u32| &table.bodies[start as usize..(start + length) as usize];
        let mut row = 0;
        for object in &drawing.outer.objects {
            row += 1;
            let inner = match object {
                Object::Text(text) => text,
                Object::TextPath(along) => &along.text,
                _ => continue,
            };
            let answer = text(Some(&good), row);
            let plain = run(answer.text_start, answer.text_length);
            assert!(plain.iter().copied().eq(inner.text.iter().map(|char| u32::from(*char))));
            let Some(latex) = &inner.style.latex else {
                assert_eq!((answer.alternative_start, answer.alternative_length), (0, 0));
                continue;
            };
            let alternative = run(answer.alternative_start, answer.alternative_length);
            assert!(alternative.iter().copied().eq(latex.alternative.iter().map(|char| u32::from(*char))));
            let before = table.bodies[answer.alternative_start as usize - 1];
            assert_eq!(before, answer.alternative_length);
        }
    }
}

#[test]
fn the_text_to_show_is_that_very_run() {
    let (alternative, plain) = ([1, 2], [3]);
    assert!(std::ptr::eq(shown(&alternative, &plain), &alternative[..]));
    assert!(std::ptr::eq(shown(&[], &plain), &plain[..]));
    assert_eq!(shown::<u32>(&[], &[]), &[0; 0]);
}

#[test]
fn descriptions_by_hand() {
    let place = |number, start, length| DescriptionAnswer { number, start, length };
    // The outer group's body ends the bodies: a count, a flow frame flag, and a length of 0. The text's stands before it.
    let good = table_of(&text_1_2());
    let words = good.table.words();
    assert_eq!(description(Some(&good), 0), place(0, words, 0));
    assert_eq!(description(Some(&good), 1), place(0, words - 4, 1));
    assert_eq!(good.table.bodies[words as usize - 4], u32::from(b'm'));
    assert_eq!(description(Some(&good), 2), place(6, 0, 0));
    assert_eq!(description(None, 2), place(16, 0, 0));
    let below = table_of(&bitmap_1_1());
    assert_eq!(description(Some(&below), 3), place(0, 0, 0));
    assert_eq!(description(Some(&below), 4), place(6, 0, 0));
}
