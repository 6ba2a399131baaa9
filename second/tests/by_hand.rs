//! Files and tables computed by hand, and every refusal at an offset computed by hand.

mod hand;

use hand::{
    bitmap_1_1, empty_1_0, empty_1_2, path_1_0, path_1_4, text_1_2, text_path_1_5, EMPTY_1_2, PATH_1_0,
    PATH_1_4, TEXT_1_2, TEXT_PATH_1_5,
};
use second::plans::{plan_a, Hand};
use second::{check, lister, read, table, write};

/// Number and offset of the refusal, or 0 and the file's length.
fn answer(file: &[u8]) -> (u32, u32) {
    match read::drawing(file) {
        Ok(_) => (0, file.len() as u32),
        Err(refusal) => (refusal.number, refusal.offset),
    }
}

/// The answer after other bytes are put at an offset.
fn with(file: &[u8], offset: usize, bytes: &[u8]) -> (u32, u32) {
    let mut file = file.to_vec();
    file[offset..offset + bytes.len()].copy_from_slice(bytes);
    answer(&file)
}

fn float(value: f32) -> [u8; 4] {
    value.to_be_bytes()
}

fn assert_table(file: &[u8], contents: &[u32], bodies: &[u32]) {
    let drawing = read::drawing(file).unwrap();
    let table = table::of(&drawing);
    assert_eq!(table.contents, contents);
    assert_eq!(table.bodies, bodies);
    assert_eq!(write::file(&drawing), file);
    assert_eq!(check::good(contents, bodies).unwrap().file, file);
}

#[test]
fn tables_by_hand() {
    assert_table(&path_1_0(), &[1, 0, 36, 2, 2, 0, 2, 34], &PATH_1_0);
    assert_table(&path_1_4(), &[1, 0, 57, 4, 2, 0, 2, 55], &PATH_1_4);
    assert_table(&text_1_2(), &[1, 0, 55, 3, 3, 0, 16, 39], &TEXT_1_2);
    assert_table(&text_path_1_5(), &[1, 0, 54, 3, 5, 0, 2, 52], &TEXT_PATH_1_5);
    assert_table(&empty_1_0(), &[1, 0, 2, 2], &[0, 0, 0, 0]);
    let rows = [[1, 0, 20, 3], [1, 0, 2, 6], [1, 0, 14, 3], [1, 2, 8, 6], [1, 0, 17, 3]];
    assert_table(&empty_1_2(), &rows.concat(), &EMPTY_1_2);
}

#[test]
fn what_1_4_has_is_the_same_in_1_5() {
    let mut file = path_1_4();
    file[15] = b'5';
    let mut bodies = PATH_1_4;
    bodies[0] = 5;
    assert_table(&file, &[1, 0, 57, 4, 2, 0, 2, 55], &bodies);
}

#[test]
fn the_lister_prints_an_x() {
    let table = table::of(&read::drawing(&text_path_1_5()).unwrap());
    assert_eq!(lister::lines(&table), "1.5 2 57\n0 G 0 54 3\n1 X 0 2 52\n");
}

#[test]
fn the_lister_prints_an_empty_group() {
    let table = table::of(&read::drawing(&empty_1_0()).unwrap());
    assert_eq!(lister::lines(&table), "1.0 1 4\n0 G 0 2 2\n");
}

#[test]
fn parents_are_those_of_the_nesting() {
    let table = table::of(&read::drawing(&bitmap_1_1()).unwrap());
    // name 2, flag 1, strings 3 and 1, doubles 12, flow flag 1: 20 words; the second has 16.
    let rows = [1, 0, 40, 2, 1, 0, 22, 2, 4, 1, 2, 20, 4, 0, 24, 16];
    assert_eq!(table.contents, rows);
    assert_eq!(table.bodies.len(), 42);
}

#[test]
fn lengths_by_hand() {
    assert_eq!(path_1_0().len(), 134);
    assert_eq!(path_1_4().len(), 196);
    assert_eq!(text_1_2().len(), 192);
    assert_eq!(text_path_1_5().len(), 200);
    assert_eq!(empty_1_0().len(), 24);
    assert_eq!(empty_1_2().len(), 84);
}

#[test]
fn head_refusals() {
    let file = text_1_2();
    assert_eq!(with(&file, 6, &[255; 4]), (4, 6));
    assert_eq!(with(&file, 6, &[0, 0, 0, 2]), (4, 6));
    assert_eq!(with(&file, 15, b"9"), (4, 10));
    assert_eq!(with(&file, 20, &[0, 0, 0, 8]), (6, 20));
    assert_eq!(with(&file, 20, &[255; 4]), (6, 20));
    assert_eq!(with(&file, 28, &[19]), (6, 28));
    assert_eq!(with(&file, 28, &[200]), (6, 28));
    assert_eq!(with(&file, 46, &[4]), (6, 46));
    assert_eq!(with(&file, 55, b"\0P"), (7, 55));
    assert_eq!(with(&file, 55, b"\0X"), (7, 55));
    assert_eq!(with(&text_path_1_5(), 17, b"\0X"), (7, 17));
    assert_eq!(with(&text_path_1_5(), 15, b"6"), (4, 10));
    assert_eq!(with(&plan_a(), 15, b"5"), (2, 81), "a description is wanted");
}

#[test]
fn settings_from_1_3_are_a_byte() {
    let file = path_1_4();
    assert_eq!(with(&file, 16, &[3]), (6, 16));
    assert_eq!(with(&file, 16, &[255]), (6, 16));
    let rest = |hand: Hand| hand.chars("G").integer(1).chars("I").string("a").byte(0).transformation();
    let end = |hand: Hand| hand.byte(0).string("").byte(0).string("").0;
    assert_eq!(answer(&end(rest(Hand::head("1.3").byte(2).byte(72)))), (0, 91));
    assert_eq!(answer(&end(rest(Hand::head("1.3").byte(2).byte(73)))), (6, 17));
    assert_eq!(answer(&end(rest(Hand::head("1.3").byte(2).byte(18).double(1.0).double(2.0)))), (0, 107));
    assert_eq!(answer(&end(rest(Hand::head("1.3").byte(3)))), (6, 16));
    // Below 1.3 a 2 is true, so the 17 is the grid and the G stands where lock and rulers do.
    assert_eq!(answer(&end(rest(Hand::head("1.2").byte(2).byte(17)))), (7, 38));
}

#[test]
fn a_field_of_several_chars_is_cut_at_its_start() {
    assert_eq!(answer(b"\0J\0X\0"), (2, 0));
    assert_eq!(answer(b"\0J\0X\0R"), (3, 0));
    assert_eq!(answer(&plan_a()[..9]), (2, 6));
    let mut wrong = plan_a();
    wrong[11] = b'9';
    assert_eq!(answer(&wrong[..15]), (2, 10));
    assert_eq!(answer(&wrong[..16]), (4, 10));
}

#[test]
fn an_earlier_fault_comes_before_a_later_cut() {
    let mut file = plan_a();
    file[18] = b'T';
    assert_eq!(answer(&file[..19]), (7, 17));
    assert_eq!(answer(&file[..18]), (2, 17));
}

#[test]
fn strings_are_cut_at_the_char_that_is_missing() {
    let file = plan_a();
    assert_eq!(answer(&file[..27]), (2, 25));
    assert_eq!(answer(&file[..29]), (2, 29));
    assert_eq!(answer(&file[..30]), (2, 29));
    let mut long = file[..31].to_vec();
    long[25..29].copy_from_slice(&i32::MAX.to_be_bytes());
    assert_eq!(answer(&long), (2, 31));
    long.push(0);
    assert_eq!(answer(&long), (2, 31));
}

#[test]
fn each_double_of_a_transformation_is_a_field() {
    for cut in 32..80 {
        let field = 32 + (cut - 32) / 8 * 8;
        assert_eq!(answer(&plan_a()[..cut]), (2, field as u32));
    }
}

#[test]
fn flow_flags() {
    assert_eq!(with(&plan_a(), 80, &[1]), (11, 80));
    assert_eq!(with(&plan_a(), 80, &[2]), (11, 80));
    assert_eq!(with(&plan_a(), 81, &[1]), (11, 81));
    assert_eq!(with(&plan_a(), 81, &[128]), (11, 81));
}

/// 'Any byte that is not 0 is true': settings, grid, rulers and portrait.
#[test]
fn true_flags() {
    let file = text_1_2();
    let length = file.len() as u32;
    for place in [16, 17, 19, 45] {
        for byte in [1, 2, 127, 128, 255] {
            assert_eq!(with(&file, place, &[byte]), (0, length));
        }
    }
}

#[test]
fn line_style_refusals() {
    let file = path_1_0();
    assert_eq!(with(&file, 49, &[0, 0, 0, 1]), (8, 49));
    assert_eq!(with(&file, 49, &[255, 255, 255, 254]), (8, 49));
    assert_eq!(with(&file, 49, &[0x7F, 255, 255, 255]), (8, 49));
    assert_eq!(with(&file, 53, &[3]), (6, 53));
    assert_eq!(with(&file, 54, &[3]), (6, 54));
    assert_eq!(with(&file, 55, &[2]), (6, 55));
    assert_eq!(with(&file, 56, &[8]), (6, 56));
    assert_eq!(with(&file, 57, &[200]), (6, 57));
    assert_eq!(with(&file, 45, &[0xFF; 4]), (0, 134));
    // A dash count that is even but longer than the file: cut at the length that is missing.
    let (number, offset) = with(&file, 49, &[0x7F, 255, 255, 254]);
    assert_eq!((number, offset), (2, 53 + (134 - 53) / 4 * 4));
}

#[test]
fn path_refusals() {
    let file = path_1_0();
    assert_eq!(with(&file, 25, b"\0D"), (7, 25));
    assert_eq!(with(&file, 25, b"\0Y"), (7, 25));
    assert_eq!(with(&file, 27, b"\0S"), (7, 27));
    assert_eq!(with(&file, 29, &float(1.5)), (9, 29));
    assert_eq!(with(&file, 41, &float(f32::NAN)), (9, 41));
    assert_eq!(with(&file, 37, &float(-0.0)), (0, 134));
    assert_eq!(with(&file, 37, &float(-1.0e-45)), (9, 37));
    assert_eq!(with(&file, 58, b"\0c"), (7, 58));
    assert_eq!(with(&file, 60, &[0; 4]), (8, 60));
    assert_eq!(with(&file, 60, &[255; 4]), (8, 60));
    assert_eq!(with(&file, 64, b"\0l"), (7, 64));
    assert_eq!(with(&file, 98, b"\x01M"), (7, 98));
    assert_eq!(with(&file, 60, &[0, 0, 0, 3]), (7, 132));
}

#[test]
fn joins() {
    let file = path_1_0();
    assert_eq!(with(&file, 66, &[9; 8]), (0, 134), "the first start is free");
    assert_eq!(with(&file, 100, &[9; 8]), (12, 100));
    assert_eq!(with(&file, 108, &(-0.0f64).to_be_bytes()), (12, 108), "0 and -0 do not join");
    assert_eq!(with(&file, 82, &[9; 8]), (12, 100));
    let mut broken = file.clone();
    broken[100] ^= 1;
    assert_eq!(answer(&broken[..110]), (12, 100), "x unjoined with y cut");
    assert_eq!(answer(&broken[..105]), (2, 100), "x itself cut");
    assert_eq!(answer(&file[..110]), (2, 108));
    let nan = 0x7FF0_0000_0000_0001u64.to_be_bytes();
    let mut same = file.clone();
    same[82..90].copy_from_slice(&nan);
    same[100..108].copy_from_slice(&nan);
    assert_eq!(answer(&same), (0, 134), "a NaN joins itself");
}

#[test]
fn paint_and_marker_refusals_of_1_4() {
    let file = path_1_4();
    assert_eq!(with(&file, 27, &float(360.0)), (9, 27));
    assert_eq!(with(&file, 27, &float(f32::from_bits(360f32.to_bits() - 1))), (0, 196));
    assert_eq!(with(&file, 27, &float(-0.0)), (0, 196));
    assert_eq!(with(&file, 31, &float(1.000_000_1)), (9, 31));
    assert_eq!(with(&file, 45, b"\0G"), (7, 45), "a gradient in a gradient");
    assert_eq!(with(&file, 55, b"\0D"), (7, 55));
    assert_eq!(with(&file, 57, &[0, 0, 0, 9]), (6, 57));
    assert_eq!(with(&file, 57, &[255; 4]), (6, 57));
    assert_eq!(with(&file, 88, &[80]), (6, 88));
    assert_eq!(with(&file, 93, &[0]), (6, 93));
    assert_eq!(with(&file, 93, &[4]), (6, 93));
    assert_eq!(with(&file, 94, &[2]), (0, 196));
    assert_eq!(with(&file, 95, &[2]), (7, 96), "no angle, so the paint's char is wanted");
    assert_eq!(with(&file, 100, b"\0G"), (7, 100), "no gradient in a marker");
    assert_eq!(with(&file, 102, &[2]), (6, 108), "no offsets, so a marker of id 1 is wanted: its repeat");
    assert_eq!(with(&file, 103, &[2]), (0, 196));
    assert_eq!(with(&file, 108, &[7]), (6, 118), "an offset, and then a marker: its repeat");
    assert_eq!(with(&file, 185, &[255; 4]), (8, 185), "a negative description length");
}

#[test]
fn text_refusals() {
    let file = text_1_2();
    assert_eq!(with(&file, 63, &[255; 4]), (8, 63));
    assert_eq!(with(&file, 71, &[2]), (6, 71));
    assert_eq!(with(&file, 72, &[2]), (6, 72));
    assert_eq!(with(&file, 73, &[255; 4]), (6, 73), "a font size below 0");
    assert_eq!(with(&file, 73, &[0; 4]), (0, 192));
    assert_eq!(with(&file, 125, &[2]), (0, 192));
    assert_eq!(with(&file, 144, &[3]), (6, 144));
    assert_eq!(with(&file, 145, &[4]), (6, 145));
    assert_eq!(with(&file, 146, &[255; 4]), (8, 146));
    assert_eq!(with(&file, 172, &[0; 4]), (8, 172));
    assert_eq!(with(&file, 172, &[255; 4]), (8, 172));
    assert_eq!(with(&file, 181, &[255; 4]), (8, 181));
}

#[test]
fn an_x_below_1_5_is_7() {
    for digit in b'0'..=b'4' {
        assert_eq!(with(&text_path_1_5(), 15, &[digit]), (7, 23));
    }
    let table = table::of(&read::drawing(&text_path_1_5()).unwrap());
    for minor in [0, 1, 2, 3, 4, 6] {
        let mut bodies = table.bodies.clone();
        bodies[0] = minor;
        assert!(check::good(&table.contents, &bodies).is_none());
    }
}

#[test]
fn refusals_in_a_text_along_a_path() {
    let file = text_path_1_5();
    assert_eq!(with(&file, 25, b"\0X"), (7, 25));
    assert_eq!(with(&file, 27, &float(2.0)), (9, 27));
    assert_eq!(with(&file, 35, &[255; 4]), (8, 35));
    assert_eq!(with(&file, 41, &[2]), (6, 41));
    assert_eq!(with(&file, 42, &[2]), (6, 42));
    assert_eq!(with(&file, 43, &[255; 4]), (6, 43));
    assert_eq!(with(&file, 95, &[2]), (0, 200));
    assert_eq!(with(&file, 114, &[3]), (6, 114));
    assert_eq!(with(&file, 115, &[4]), (6, 115));
    assert_eq!(with(&file, 116, &[255; 4]), (8, 116));
    assert_eq!(with(&file, 122, &[0; 4]), (8, 122));
    assert_eq!(with(&file, 130, b"\0o"), (7, 130));
    assert_eq!(with(&file, 130, b"\0C"), (0, 200));
    assert_eq!(with(&file, 132, &[0; 4]), (8, 132));
    assert_eq!(with(&file, 132, &[255; 4]), (8, 132));
    assert_eq!(with(&file, 132, &[0, 0, 0, 3]), (7, 188), "one segment more than there are");
    assert_eq!(with(&file, 136, &[255; 8]), (0, 200), "no start has to join");
    assert_eq!(with(&file, 152, b"\0X"), (7, 152));
    assert_eq!(with(&file, 188, &[1]), (11, 188));
    assert_eq!(with(&file, 188, &[2]), (11, 188));
    assert_eq!(with(&file, 189, &[255; 4]), (8, 189));
}

#[test]
fn an_outline_is_cut_at_the_field_that_is_missing() {
    let file = text_path_1_5();
    for (kept, field) in [(130, 130), (133, 132), (140, 136), (144, 144), (153, 152), (160, 154), (169, 162)]
    {
        assert_eq!(answer(&file[..kept]), (2, field));
    }
}

#[test]
fn the_smallest_file() {
    let file = empty_1_0();
    assert_eq!(answer(&file), (0, 24));
    assert_eq!(answer(&file[..23]), (2, 23));
    assert_eq!(answer(&[&file[..], &[0]].concat()), (13, 24));
    assert_eq!(with(&file, 19, &[255; 4]), (8, 19));
    assert_eq!(with(&file, 19, &[128, 0, 0, 0]), (8, 19));
    assert_eq!(with(&file, 19, &[0, 0, 0, 1]), (2, 23), "an id char is wanted");
    assert_eq!(with(&file, 23, &[1]), (11, 23));
    assert_eq!(with(&file, 23, &[2]), (11, 23));
    assert_eq!(with(&file, 15, b"2"), (2, 24), "a description is wanted");
}

#[test]
fn refusals_around_empty_groups() {
    let file = empty_1_2();
    for n in [19, 25, 42, 48, 70] {
        assert_eq!(with(&file, n, &[255; 4]), (8, n as u32));
        assert_eq!(with(&file, n, &[128, 0, 0, 0]), (8, n as u32));
        assert_eq!(answer(&file[..n + 3]), (2, n as u32));
    }
    for (n, flow_flag) in [(25, 29), (48, 52), (70, 74)] {
        assert_eq!(with(&file, n, &[0, 0, 0, 1]), (7, flow_flag), "an object where the flow flag stands");
    }
    assert_eq!(with(&file, 19, &[0, 0, 0, 4]), (7, 79));
    // A count too small: the id char's first byte is taken as the flow flag, its second begins the description's length.
    assert_eq!(with(&file, 42, &[0; 4]), (2, 51 + (84 - 51) / 2 * 2));
    assert_eq!(with(&file, 19, &[0, 0, 0, 2]), (2, 73 + (84 - 73) / 2 * 2));
    assert_eq!(with(&file, 29, &[1]), (11, 29));
    assert_eq!(with(&file, 52, &[2]), (11, 52));
    assert_eq!(with(&file, 53, &[255; 4]), (8, 53));
    assert_eq!(answer(&file[..29]), (2, 29));
    assert_eq!(answer(&file[..38]), (2, 38), "a char of the description");
}

#[test]
fn the_limit_is_judged_by_length_alone() {
    assert_eq!(answer(&[0; 65_536]), (1, 65_535));
    assert_eq!(answer(&[0; 65_535]), (3, 0));
    let mut file = plan_a();
    file.resize(65_536, 0);
    assert_eq!(answer(&file), (1, 65_535));
    file.truncate(65_535);
    assert_eq!(answer(&file), (13, 82));
}
