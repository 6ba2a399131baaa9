//! Tables: what was read is written back, and no other table is good.

use second::answer::Answer;
use second::check;
use second::damage::fields::{of_bodies, words, Field};
use second::damage::tables::{exchange_bodies, put};
use second::generate::special::{empty_to_depth, plain_bitmap, plain_drawing, sampler};
use second::generate::{self, chars};
use second::layout::Kind;
use second::model::{Drawing, Object};
use second::table::{self, Table, ROW};
use second::version::Version;
use second::{read, write};

fn drawings() -> Vec<Drawing> {
    let mut all: Vec<Drawing> = Version::ALL.iter().map(|version| sampler(2, *version)).collect();
    for depth in [1, 4] {
        all.extend(Version::ALL.iter().map(|version| empty_to_depth(*version, depth, &chars("bay"))));
    }
    for seed in 0..60 {
        all.extend(Version::ALL.iter().map(|version| generate::drawing(seed, *version, 500)));
        all.extend(Version::ALL.iter().map(|version| generate::with_empty_groups(seed, *version, 500)));
    }
    all
}

fn is_good(table: &Table) -> bool {
    check::good(&table.contents, &table.bodies).is_some()
}

#[test]
fn what_is_read_is_written_back() {
    for drawing in drawings() {
        let file = write::file(&drawing);
        assert_eq!(read::drawing(&file), Ok(drawing.clone()));
        assert_eq!(write::length(&drawing), file.len());
        let table = table::of(&drawing);
        let good = check::good(&table.contents, &table.bodies).unwrap();
        assert_eq!(good.drawing, drawing);
        assert_eq!(good.file, file);
    }
}

#[test]
fn every_word_of_the_contents_counts() {
    for drawing in drawings().iter().take(40) {
        let table = table::of(drawing);
        for place in 0..table.contents.len() {
            for change in [1, u32::MAX, 0x8000_0000] {
                let mut table = table.clone();
                table.contents[place] = table.contents[place].wrapping_add(change);
                assert!(!is_good(&table));
            }
        }
    }
}

/// Whether any other bits would do in this field: only free ones, and a point may be joined.
fn is_free(version: Version, field: &Field) -> Option<bool> {
    match field.kind {
        Kind::Float | Kind::Char => Some(true),
        Kind::Double if version.has_path_start() => Some(true),
        Kind::Double => None,
        kind if kind == Kind::ANY_INTEGER => Some(true),
        Kind::Integer { .. } | Kind::Byte { .. } | Kind::MarkerId { .. } => None,
        Kind::Flag { .. } | Kind::Letter { .. } | Kind::Component | Kind::Hue => None,
        // The empty string before `c` of char 0 and the string of char 1 before the empty one have
        // words that differ in one count only.
        Kind::Count { .. } => None,
        _ => Some(false),
    }
}

#[test]
fn every_word_of_the_bodies_is_judged() {
    for drawing in drawings().iter().take(40) {
        let table = table::of(drawing);
        for field in of_bodies(drawing) {
            let mut changed = table.clone();
            put(&mut changed.bodies, &field, field.value ^ 1);
            if let Some(free) = is_free(drawing.version, &field) {
                assert_eq!(is_good(&changed), free, "{field:?}");
            }
            if field.kind.width() <= 2 {
                let mut wide = table.clone();
                wide.bodies[field.place] |= 1 << (8 * field.kind.width());
                assert!(!is_good(&wide), "{field:?}");
            }
        }
    }
}

#[test]
fn the_fields_of_the_bodies_stand_where_they_are_said_to() {
    for drawing in drawings() {
        let table = table::of(&drawing);
        let mut next = 1;
        for field in of_bodies(&drawing) {
            assert_eq!(field.place, next);
            assert_eq!(table.bodies[next + words(field.kind) - 1], field.value as u32);
            next += words(field.kind);
        }
        assert_eq!(next, table.bodies.len());
    }
}

#[test]
fn runs_have_exactly_the_used_words() {
    let table = table::of(&sampler(2, Version::ALL[5]));
    assert!(is_good(&table));
    for change in [-4isize, -1, 1, 4] {
        let mut other = table.clone();
        other.contents.resize(table.contents.len().wrapping_add_signed(change), 0);
        assert!(!is_good(&other));
        let mut other = table.clone();
        other.bodies.resize(table.bodies.len().wrapping_add_signed(change), 0);
        assert!(!is_good(&other));
    }
    assert!(check::good(&[], &[]).is_none());
    assert!(check::good(&table.contents, &[]).is_none());
    assert!(check::good(&[], &table.bodies).is_none());
}

/// An empty group and one of three empty ones inside the outer group: rows 1, and 2 with 3 to 5; row 6 comes after.
#[test]
fn an_empty_group_takes_no_object() {
    for version in Version::ALL {
        let table = table::of(&empty_to_depth(version, 3, &chars("bay")));
        assert!(is_good(&table));
        let parents: Vec<u32> = table.contents.chunks(ROW).map(|row| row[1]).collect();
        assert_eq!(parents, [0, 0, 0, 2, 2, 2, 0]);
        for (row, parent) in [(2, 1), (3, 1), (4, 3), (6, 5), (6, 1)] {
            let mut moved = table.clone();
            moved.contents[row * ROW + 1] = parent;
            assert!(!is_good(&moved));
            // The counts made right, the bodies still stand where they stood.
            for (group, change) in [(parent, 1), (parents[row], -1)] {
                let n = moved.contents[group as usize * ROW + 2] as usize;
                moved.bodies[n] = moved.bodies[n].wrapping_add_signed(change);
            }
            assert!(!is_good(&moved));
        }
    }
}

#[test]
fn equal_bodies_exchanged_with_their_starts_are_16() {
    let objects = vec![Object::Bitmap(plain_bitmap(1)), Object::Bitmap(plain_bitmap(1))];
    let mut table = table::of(&plain_drawing(Version::ALL[0], objects));
    let before = table.bodies.clone();
    exchange_bodies(&mut table, 1, 2);
    assert_eq!(table.bodies, before);
    assert_eq!((table.contents[ROW + 2], table.contents[2 * ROW + 2]), (18, 2));
    assert!(!is_good(&table));
}

#[test]
fn the_writer_answers_by_its_room() {
    let table = table::of(&generate::drawing(1, Version::ALL[3], 300));
    let good = check::good(&table.contents, &table.bodies);
    let file = good.as_ref().unwrap().file.clone();
    let length = file.len() as u32;
    let mut output = vec![9; file.len() + 2];
    let accepted = Answer::new(0, length, table.rows(), table.words());
    assert_eq!(write::call(good.as_ref(), &mut output), accepted);
    assert_eq!(output[..file.len()], file);
    assert_eq!(output[file.len()..], [9, 9]);
    assert_eq!(check::call(good.as_ref()), accepted);
    let mut short = vec![9; file.len() - 1];
    assert_eq!(write::call(good.as_ref(), &mut short), Answer::refused(17, length));
    assert!(short.iter().all(|byte| *byte == 9));
    assert_eq!(write::call(None, &mut short), Answer::refused(16, 0));
    assert_eq!(check::call(None), Answer::refused(16, 0));
}
