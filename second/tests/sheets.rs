//! Sheets: plan A's byte by byte, the answers of the two calls, and that each good table has one sheet and comes back from it.

mod hand;

use hand::{bitmap_1_1, path_1_0, path_1_4, text_1_2, text_path_1_5};
use second::answer::Answer;
use second::check;
use second::damage::sheets::careless;
use second::generate::edges::{at_ends, every_pairing, every_settings};
use second::generate::sheets::{many_rows, many_words, sheet};
use second::generate::special::{empty_to_depth, nan_sampler, of_depth, padded, sampler, with_chains};
use second::generate::{self, chars};
use second::model::Drawing;
use second::plans::plan_a;
use second::sheet::{good, read_call, write_call, Edition, EDITION};
use second::table::{self, Table, ROW};
use second::version::Version;
use second::{list, read, write};
use std::collections::BTreeMap;

/// Plan A's sheet: 100 bytes.
#[rustfmt::skip]
const PLAN_A: [u8; 100] = [
    0, 2, 0, 20, // rows 0, words 2
    0, 1, 0, 0, 0, 18, 0, 2, // row 0, at 4: group, parent, start, length
    0, 4, 0, 0, 0, 2, 0, 16, // row 1, at 12: bitmap, parent, start, length
    0, 0, 0, 0, 0, 0, 0, 0, // minor version 20, settings 24
    0, 0, 0, 1, 0, 0, 0, 0x61, 0, 0, 0, 0, // name length 28, name 32, flag 36
    0x3F, 0xF0, 0, 0, 0, 0, 0, 0, 0, 0, 0, 0, 0, 0, 0, 0, 0, 0, 0, 0, 0, 0, 0, 0, // 1 0 0, at 40
    0x3F, 0xF0, 0, 0, 0, 0, 0, 0, 0, 0, 0, 0, 0, 0, 0, 0, 0, 0, 0, 0, 0, 0, 0, 0, // 1 0 0, at 64
    0, 0, 0, 0, // flow flag 88
    0, 0, 0, 1, 0, 0, 0, 0, // the group's n 92 and flow flag 96
];

fn table_of(file: &[u8]) -> Table {
    table::of(&read::drawing(file).unwrap())
}

fn write(table: &Table, lent: &mut [u8]) -> Answer {
    write_call(check::good(&table.contents, &table.bodies).as_ref(), lent)
}

/// The read call with rooms of so many words; after a number other than 0 they hold what they held.
fn read_with(sheet: &[u8], contents: usize, bodies: usize) -> Answer {
    let (mut contents, mut bodies) = (vec![7; contents], vec![7; bodies]);
    let answer = read_call(sheet, &mut contents, &mut bodies);
    assert!(answer.number == 0 || contents.iter().chain(&bodies).all(|word| *word == 7));
    answer
}

/// Rooms are large enough.
fn answer(sheet: &[u8]) -> Answer {
    read_with(sheet, 40_000, 70_000)
}

/// The answer after other bytes are put at an offset.
fn with(offset: usize, bytes: &[u8]) -> Answer {
    let mut sheet = PLAN_A;
    sheet[offset..offset + bytes.len()].copy_from_slice(bytes);
    answer(&sheet)
}

const NO_SHEET: Answer = Answer { number: 19, offset: 0, rows: 0, words: 0 };

#[test]
fn plan_a_by_hand() {
    let table = table_of(&plan_a());
    let mut lent = [9; 103];
    assert_eq!(write(&table, &mut lent), Answer::new(0, 100, 2, 20));
    assert_eq!(lent[..100], PLAN_A);
    assert_eq!(lent[100..], [9; 3]);
    let (mut contents, mut bodies) = ([9; 9], [9; 22]);
    assert_eq!(read_call(&PLAN_A, &mut contents, &mut bodies), Answer::new(0, 100, 2, 20));
    assert_eq!((&contents[..8], &bodies[..20]), (&table.contents[..], &table.bodies[..]));
    assert_eq!((contents[8], &bodies[20..]), (9, &[9, 9][..]));
}

#[test]
fn lengths_by_hand() {
    let lengths = [
        (path_1_0(), 4 + 2 * 8 + 38 * 4),
        (path_1_4(), 4 + 2 * 8 + 61 * 4),
        (text_1_2(), 4 + 2 * 8 + 58 * 4),
        (text_path_1_5(), 4 + 2 * 8 + 57 * 4),
        (bitmap_1_1(), 4 + 4 * 8 + 42 * 4),
    ];
    for (file, length) in lengths {
        let table = table_of(&file);
        assert_eq!(write(&table, &mut vec![0; length]).offset as usize, length);
        assert_eq!(answer(&careless(&table)), Answer::new(0, length as u32, table.rows(), table.words()));
    }
}

#[test]
fn the_writer_answers_by_its_table_and_then_by_its_room() {
    let table = table_of(&plan_a());
    for room in [0, 1, 50, 99] {
        let mut lent = vec![9; room];
        assert_eq!(write(&table, &mut lent), Answer::refused(17, 100));
        assert!(lent.iter().all(|byte| *byte == 9));
    }
    assert_eq!(write(&table, &mut [0; 100]).number, 0);
    let mut bad = table.clone();
    bad.bodies[0] = 6;
    for room in [0, 99, 100, 200] {
        let mut lent = vec![9; room];
        assert_eq!(write(&bad, &mut lent), Answer::refused(16, 0));
        assert!(lent.iter().all(|byte| *byte == 9));
    }
}

#[test]
fn the_reader_answers_by_its_rooms() {
    let accepted = |number| Answer::new(number, 100, 2, 20);
    assert_eq!(read_with(&PLAN_A, 8, 20), accepted(0));
    assert_eq!(read_with(&PLAN_A, 11, 25), accepted(0));
    // Room is whole rows, and 14 comes before 15.
    assert_eq!(read_with(&PLAN_A, 7, 20), accepted(14));
    assert_eq!(read_with(&PLAN_A, 4, 20), accepted(14));
    assert_eq!(read_with(&PLAN_A, 0, 0), accepted(14));
    assert_eq!(read_with(&PLAN_A, 8, 19), accepted(15));
    assert_eq!(read_with(&PLAN_A, 8, 0), accepted(15));
}

#[test]
fn what_is_no_sheet_is_19_whatever_the_rooms() {
    for rooms in [(8, 20), (7, 20), (8, 19), (0, 0)] {
        assert_eq!(read_with(&PLAN_A[..99], rooms.0, rooms.1), NO_SHEET);
        assert_eq!(read_with(&[&PLAN_A[..], &[0]].concat(), rooms.0, rooms.1), NO_SHEET);
        assert_eq!(read_with(&[], rooms.0, rooms.1), NO_SHEET);
    }
}

#[test]
fn every_cut_of_plan_a_is_19() {
    for kept in 0..100 {
        assert_eq!(answer(&PLAN_A[..kept]), NO_SHEET, "{kept}");
    }
}

/// Other bytes at an offset of plan A's sheet, each of them no sheet.
#[rustfmt::skip]
const FAULTS: [(usize, &[u8]); 33] = [
    (0, &[0, 1]), (0, &[0, 3]), (0, &[0, 0]), (0, &[2, 0]), (0, &[255, 255]), // the row count
    (2, &[0, 19]), (2, &[0, 21]), (2, &[0, 0]), (2, &[255, 255]), // the word count
    (0, &[0, 1, 0, 22]), // both, with the same length: the last row is two words
    (0, &[0, 3, 0, 18]), // the first two words are a row
    (0, &[0, 0, 0, 24]), // no row
    (0, &[255, 255, 255, 255]),
    (4, &[0, 4]), // the outer object a bitmap
    (4, &[0, 0]), // no kind
    (4, &[1, 1]), // a kind with a high byte
    (6, &[0, 1]), // the outer group inside another object
    (8, &[0, 17]), (10, &[0, 3]), // its start and length
    (12, &[0, 1]), // the bitmap a group
    (12, &[0, 6]), // no kind
    (14, &[0, 1]), // the bitmap inside itself
    (16, &[0, 3]), (18, &[0, 15]), // its start and length
    (20, &[0, 0, 0, 2]), // a version with descriptions
    (20, &[0, 0, 0, 6]), // no version
    (24, &[0, 0, 0, 2]), // no flag
    (28, &[0, 0, 0, 0]), // no name
    (28, &[255, 255, 255, 255]), // a negative length
    (32, &[0, 1, 0, 0x61]), // no char
    (36, &[0, 0, 0, 255]), // no flag
    (88, &[0, 0, 0, 1]), // flow frames
    (92, &[0, 0, 0, 2]), // one object more than there is
];

#[test]
fn faults_by_hand() {
    for (offset, bytes) in FAULTS {
        assert_eq!(with(offset, bytes), NO_SHEET, "{bytes:?} at {offset}");
    }
    let accepted = Answer::new(0, 100, 2, 20);
    assert_eq!(with(20, &[0, 0, 0, 1]), accepted, "plan A has nothing that 1.1 has otherwise");
    assert_eq!(with(32, &[0, 0, 255, 255]), accepted, "any char will do in a name");
    assert_eq!(with(40, &[255; 48]), accepted, "any bits will do in a double");
}

/// Good drawings of every sort.
fn drawings() -> Vec<Drawing> {
    let mut all = Vec::new();
    for version in Version::ALL {
        all.extend([sampler(3, version), nan_sampler(3, version), every_pairing(3, version)]);
        all.extend([at_ends(3, version, false), at_ends(3, version, true)]);
        all.extend(every_settings(3, version));
        all.push(of_depth(version, 16, &chars("deep")));
        all.extend([1, 3, 16].map(|depth| empty_to_depth(version, depth, &chars("bay"))));
        all.extend((0..40).map(|seed| generate::drawing(seed, version, 500)));
        all.extend((0..20).map(|seed| generate::with_empty_groups(seed, version, 500)));
        all.push(many_rows(version));
        if version.has_chains() {
            all.push(with_chains(3, version, [4, 4, 4]));
            all.push(many_words(version));
        }
        all.push(padded(generate::drawing(3, version, 20_000), 65_535));
    }
    all
}

#[test]
fn every_good_table_comes_back_from_its_sheet() {
    for drawing in drawings() {
        let table = table::of(&drawing);
        let sheet = sheet(&drawing);
        let length = sheet.len();
        let accepted = Answer::new(0, length as u32, table.rows(), table.words());
        let mut written = vec![0; length];
        assert_eq!(write(&table, &mut written), accepted);
        assert!(written == sheet);
        assert_eq!(write(&table, &mut written[1..]), Answer::refused(17, length as u32));
        let (mut contents, mut bodies) = (vec![0; table.contents.len()], vec![0; table.bodies.len()]);
        assert_eq!(read_call(&sheet, &mut contents, &mut bodies), accepted);
        assert!(contents == table.contents && bodies == table.bodies);
        assert_eq!(read_with(&sheet, contents.len() - 1, bodies.len()).number, 14);
        assert_eq!(read_with(&sheet, contents.len(), bodies.len() - 1).number, 15);
    }
}

/// Demand 3, and the file too, of a table that comes from a sheet.
#[test]
fn a_table_from_a_sheet_is_as_good_as_one_from_the_file() {
    for drawing in drawings() {
        let from_sheet = good(&sheet(&drawing)).unwrap();
        assert_eq!(from_sheet.drawing, drawing);
        assert!(from_sheet.file == write::file(&drawing));
        let around = list::groups_around(&drawing);
        for row in list::entries(&drawing, &drawing.outer.description) {
            let met = list::parents_followed(&from_sheet.table.contents, row);
            assert_eq!(met, around[row as usize]);
        }
    }
}

#[test]
fn two_tables_never_share_a_sheet() {
    let mut seen: BTreeMap<Vec<u8>, Table> = BTreeMap::new();
    let mut tables = 0;
    for drawing in drawings() {
        let table = table::of(&drawing);
        let before = seen.insert(sheet(&drawing), table.clone());
        tables += usize::from(before.is_none());
        assert!(before.is_none_or(|before| before == table));
    }
    assert!(tables > 250, "{tables}");
}

#[test]
fn numbers_take_all_sixteen_bits() {
    for version in Version::ALL {
        let rows = table::of(&many_rows(version));
        assert!(rows.rows() > 4_000, "{}", rows.rows());
        assert!(rows.contents.chunks(ROW).any(|row| row[1] > 4_000), "a parent");
        if version.has_chains() {
            let words = table::of(&many_words(version));
            assert!(words.words() > 0x8000, "{}", words.words());
            assert!(words.contents.chunks(ROW).any(|row| row[2] > 0x8000), "a start");
        }
    }
}

#[test]
fn the_limit_is_the_files_and_not_the_sheets() {
    for version in Version::ALL {
        for (length, accepted) in [(65_534, true), (65_535, true), (65_536, false), (65_537, false)] {
            let sheet = sheet(&padded(generate::drawing(3, version, 5_000), length));
            assert!(sheet.len() > 65_537);
            let Answer { number, offset, .. } = answer(&sheet);
            assert_eq!((number, offset as usize), if accepted { (0, sheet.len()) } else { (19, 0) });
        }
    }
    for length in [65_536, 131_072, 2_000_000] {
        assert_eq!(answer(&vec![0; length]), NO_SHEET);
        assert_eq!(answer(&vec![255; length]), NO_SHEET);
    }
}

/// Counts and contents numbers have the width of the edition, and all else stays.
#[test]
fn the_width_is_a_parameter() {
    let wide = Edition { width: 4 };
    for drawing in drawings().into_iter().take(30) {
        let table = table::of(&drawing);
        let sheet = wide.sheet(&table).unwrap();
        assert_eq!(sheet.len(), 8 + 4 * table.contents.len() + 4 * table.bodies.len());
        assert_eq!(wide.table(&sheet).as_ref(), Some(&table));
        assert_eq!(EDITION.table(&EDITION.sheet(&table).unwrap()), Some(table));
    }
    let table = |contents: Vec<u32>| Table { contents, bodies: vec![0x0001_0000, 0xFFFF_FFFF] };
    let narrow = table(vec![1, 0xFFFF, 3, 4]);
    assert_eq!(EDITION.sheet(&narrow).as_deref(), Some(&NARROW[..]));
    assert_eq!(EDITION.table(&NARROW), Some(narrow));
    let too_large = table(vec![1, 0x1_0000, 3, 4]);
    assert_eq!(EDITION.sheet(&too_large), None);
    assert_eq!(wide.table(&wide.sheet(&too_large).unwrap()), Some(too_large));
    assert_eq!(EDITION.sheet(&table(vec![0; ROW * 0x1_0000])), None, "a row count that does not fit");
}

const NARROW: [u8; 20] = [0, 1, 0, 2, 0, 1, 255, 255, 0, 3, 0, 4, 0, 1, 0, 0, 255, 255, 255, 255];
