//! The box around a path, on files put together by hand, field by field.

mod hand;

use hand::{bitmap_1_1, empty_1_0, path_1_0, path_1_4, text_1_2, text_path_1_5};
use second::answer::BoxAnswer;
use second::check::{good, Good};
use second::extent;
use second::generate::coordinates::NANS;
use second::plans::Hand;
use second::{direct, read, table};
use std::f64::{INFINITY, MAX, NAN, NEG_INFINITY};

/// The least number above 0.
const TINY: f64 = f64::from_bits(1);

/// A segment: its letter, and its points without a start of its own.
type Segment<'a> = (&'a str, &'a [[f64; 2]]);

fn point(hand: Hand, [x, y]: [f64; 2]) -> Hand {
    hand.double(x).double(y)
}

/// `O`, n and the segments: with the start point before them, or each with its own start.
fn outline(mut hand: Hand, own_starts: bool, start: [f64; 2], segments: &[Segment]) -> Hand {
    hand = hand.chars("O").integer(segments.len() as i32);
    if !own_starts {
        hand = point(hand, start);
    }
    let mut before = start;
    for (letter, points) in segments {
        hand = hand.chars(letter);
        if own_starts {
            hand = point(hand, before);
        }
        hand = points.iter().fold(hand, |hand, each| point(hand, *each));
        before = points[points.len() - 1];
    }
    hand
}

/// A path of this version, in row 1. Its width and its dashes are NaNs, which are no coordinates.
fn path_file(version: &str, start: [f64; 2], segments: &[Segment]) -> Vec<u8> {
    let below_1_3 = ["1.0", "1.1", "1.2"].contains(&version);
    let mut hand = Hand::head(version).byte(0).chars("G").integer(1).chars("P").chars("T").chars("T");
    hand = hand.float(f32::NAN).integer(2).float(f32::NAN).float(1.0).float(f32::NAN);
    hand = hand.byte(0).byte(1).byte(0); // cap, join, winding
    let markers = if version == "1.0" { 2 } else { 3 };
    hand = (0..markers).fold(hand, |hand, _| hand.byte(0));
    hand = outline(hand, below_1_3, start, segments);
    let described = !["1.0", "1.1"].contains(&version);
    let ending = |hand: Hand| if described { hand.byte(0).string("") } else { hand.byte(0) };
    ending(ending(hand)).0
}

/// A text along a path, in row 1.
fn along_file(transformation: [f64; 6], start: [f64; 2], segments: &[Segment]) -> Vec<u8> {
    let mut hand = Hand::head("1.5").byte(0).chars("G").integer(1).chars("X").chars("T");
    hand = hand.string("f").byte(0).byte(0).integer(9);
    hand = transformation.into_iter().fold(hand, Hand::double);
    hand = outline(hand.byte(0).string("go"), false, start, segments);
    hand.byte(0).string("").byte(0).string("").0
}

fn table_of(file: &[u8]) -> Good {
    let table = table::of(&read::drawing(file).expect("a good file"));
    good(&table.contents, &table.bodies).expect("a good table")
}

/// The words of the box, from the plain call and from the direct one.
fn words(good: &Good, row: u32) -> [u32; 9] {
    let plain = extent::call(Some(good), row).words();
    assert_eq!(direct::extent(&good.table.contents, &good.table.bodies, row).words(), plain);
    plain
}

fn refused(number: u32) -> [u32; 9] {
    [number, 0, 0, 0, 0, 0, 0, 0, 0]
}

/// The words of a box with these sides.
fn sides([left, bottom, right, top]: [f64; 4]) -> [u32; 9] {
    let mut words = vec![0];
    for side in [left, bottom, right, top] {
        words.extend([(side.to_bits() >> 32) as u32, side.to_bits() as u32]);
    }
    words.try_into().unwrap()
}

const VERSIONS: [&str; 6] = ["1.0", "1.1", "1.2", "1.3", "1.4", "1.5"];
const PLAIN: [f64; 6] = [1.0, 0.0, 0.0, 1.0, 0.0, 0.0];

/// In every version, and in 1.5 as the path part of an X too.
fn has_box(start: [f64; 2], segments: &[Segment], expected: [u32; 9]) {
    for version in VERSIONS {
        let good = table_of(&path_file(version, start, segments));
        assert_eq!(words(&good, 1), expected, "{version} {start:?} {segments:?}");
        assert_eq!(words(&good, 0), refused(7));
        assert_eq!(words(&good, 2), refused(6));
    }
    let good = table_of(&along_file(PLAIN, start, segments));
    assert_eq!(words(&good, 1), expected, "X {start:?} {segments:?}");
}

#[test]
fn boxes_of_whole_files() {
    assert_eq!(words(&table_of(&path_1_0()), 1), sides([1.0, 0.0, 5.0, 6.0]));
    assert_eq!(words(&table_of(&path_1_4()), 1), sides([1.0, 2.0, 7.0, 8.0]));
    assert_eq!(words(&table_of(&text_path_1_5()), 1), sides([1.0, 2.0, 5.0, 6.0]));
}

/// The words of the struct are the number, then left, bottom, right and top, high half first.
#[test]
fn the_words_of_a_box() {
    let answer = BoxAnswer { number: 0, left: -0.0, bottom: 1.0, right: TINY, top: NEG_INFINITY };
    assert_eq!(answer.words(), [0, 0x8000_0000, 0, 0x3FF0_0000, 0, 0, 1, 0xFFF0_0000, 0]);
    assert_eq!(BoxAnswer::refused(20).words(), refused(20));
    assert_eq!(size_of::<BoxAnswer>(), 40);
}

#[test]
fn each_side_comes_from_any_point() {
    has_box([1.0, 2.0], &[("L", &[[3.0, -4.0]])], sides([1.0, -4.0, 3.0, 2.0]));
    has_box([3.0, -4.0], &[("L", &[[1.0, 2.0]])], sides([1.0, -4.0, 3.0, 2.0]));
    has_box([5.0, 5.0], &[("M", &[[5.0, 5.0]])], sides([5.0, 5.0, 5.0, 5.0]));
    let two: [Segment; 2] = [("M", &[[-7.0, 9.0]]), ("L", &[[0.5, 0.25]])];
    has_box([0.0, 0.0], &two, sides([-7.0, 0.0, 0.5, 9.0]));
}

#[test]
fn a_control_point_may_be_the_furthest_out() {
    let first: [Segment; 1] = [("B", &[[-8.0, 12.0], [1.0, 1.0], [2.0, 2.0]])];
    has_box([0.0, 0.0], &first, sides([-8.0, 0.0, 2.0, 12.0]));
    let second: [Segment; 1] = [("B", &[[1.0, 1.0], [30.0, -30.0], [2.0, 2.0]])];
    has_box([0.0, 0.0], &second, sides([0.0, -30.0, 30.0, 2.0]));
    let both: [Segment; 2] = [("L", &[[1.0, 1.0]]), ("B", &[[-8.0, 3.0], [3.0, 40.0], [2.0, 2.0]])];
    has_box([0.0, 0.0], &both, sides([-8.0, 0.0, 3.0, 40.0]));
}

#[test]
fn of_equal_zeros_the_first_is_kept() {
    has_box([0.0, -0.0], &[("L", &[[-0.0, 0.0]])], sides([0.0, -0.0, 0.0, -0.0]));
    has_box([-0.0, 0.0], &[("L", &[[0.0, -0.0]])], sides([-0.0, 0.0, -0.0, 0.0]));
    // The zeros come after another number, and one side each is theirs.
    let later: [Segment; 2] = [("L", &[[0.0, -0.0]]), ("M", &[[-0.0, 0.0]])];
    has_box([1.0, 1.0], &later, sides([0.0, -0.0, 1.0, 1.0]));
    has_box([-1.0, -1.0], &later, sides([-1.0, -1.0, 0.0, -0.0]));
    // Along a curve as well.
    let curve: [Segment; 1] = [("B", &[[-0.0, 0.0], [0.0, -0.0], [-0.0, -0.0]])];
    has_box([2.0, -2.0], &curve, sides([-0.0, -2.0, 2.0, 0.0]));
    has_box([0.0, 0.0], &curve, sides([0.0, 0.0, 0.0, 0.0]));
}

#[test]
fn infinities_are_allowed() {
    let corner = [INFINITY, NEG_INFINITY];
    has_box(corner, &[("L", &[corner])], sides([INFINITY, NEG_INFINITY, INFINITY, NEG_INFINITY]));
    has_box([MAX, -MAX], &[("L", &[[INFINITY, NEG_INFINITY]])], sides([MAX, NEG_INFINITY, INFINITY, -MAX]));
    let ends: [Segment; 2] = [("L", &[[NEG_INFINITY, 1.0]]), ("M", &[[INFINITY, 2.0]])];
    has_box([0.0, 0.0], &ends, sides([NEG_INFINITY, 0.0, INFINITY, 2.0]));
}

#[test]
fn nothing_is_rounded() {
    has_box([TINY, -TINY], &[("L", &[[0.0, -0.0]])], sides([0.0, -TINY, TINY, -0.0]));
    let next = 1.0f64.next_up();
    has_box([1.0, next], &[("L", &[[next, 1.0]])], sides([1.0, 1.0, next, next]));
    let tenth = 0.1 + 0.2;
    has_box([0.3, tenth], &[("M", &[[tenth, 0.3]])], sides([0.3, 0.3, tenth, tenth]));
}

/// The start point, a curve's three points, a line's and a move's end.
const SIX: [[f64; 2]; 6] = [[1.0, 2.0], [3.0, 4.0], [5.0, 6.0], [7.0, 8.0], [9.0, 10.0], [11.0, 12.0]];

fn along_six(points: &[[f64; 2]; 6], check: impl Fn([f64; 2], &[Segment])) {
    check(points[0], &[("B", &points[1..4]), ("L", &points[4..5]), ("M", &points[5..])]);
}

#[test]
fn a_nan_in_any_coordinate_is_refused() {
    along_six(&SIX, |start, segments| has_box(start, segments, sides([1.0, 2.0, 11.0, 12.0])));
    for (place, nan) in (0..12).flat_map(|place| NANS.map(|nan| (place, f64::from_bits(nan)))) {
        assert!(nan.is_nan());
        let mut points = SIX;
        points[place / 2][place % 2] = nan;
        along_six(&points, |start, segments| has_box(start, segments, refused(20)));
    }
    has_box([NAN; 2], &[("L", &[[NAN; 2]])], refused(20));
    has_box([INFINITY, 0.0], &[("L", &[[NEG_INFINITY, NAN]])], refused(20));
}

#[test]
fn a_nan_in_a_transformation_is_no_coordinate() {
    for place in 0..6 {
        let mut transformation = PLAIN;
        transformation[place] = NAN;
        let good = table_of(&along_file(transformation, [1.0, 2.0], &[("L", &[[3.0, -4.0]])]));
        assert_eq!(words(&good, 1), sides([1.0, -4.0, 3.0, 2.0]));
        let good = table_of(&along_file(transformation, [1.0, 2.0], &[("L", &[[3.0, NAN]])]));
        assert_eq!(words(&good, 1), refused(20));
    }
    // Nor is one further out than the path.
    let good =
        table_of(&along_file([99.0, -99.0, 99.0, -99.0, 99.0, -99.0], [1.0, 2.0], &[("M", &[[3.0, 4.0]])]));
    assert_eq!(words(&good, 1), sides([1.0, 2.0, 3.0, 4.0]));
}

#[test]
fn refusals_come_in_their_order() {
    let nan = table_of(&path_file("1.3", [NAN, 0.0], &[("L", &[[0.0, 0.0]])]));
    assert_eq!([0, 1, 2, u32::MAX].map(|row| words(&nan, row)), [7, 20, 6, 6].map(refused));
    let mut bodies = nan.table.bodies.clone();
    bodies.push(0);
    for row in [0, 1, 2, u32::MAX] {
        assert_eq!(extent::call(None, row).words(), refused(16));
        assert_eq!(direct::extent(&nan.table.contents, &bodies, row).words(), refused(16));
        assert_eq!(direct::extent(&[], &[], row).words(), refused(16));
    }
    // The place of such a row in the contents would wrap to that of row 1.
    let path = table_of(&path_1_0());
    assert_eq!([0x4000_0001, 0x8000_0001, 0xC000_0001].map(|row| words(&path, row)), [refused(6); 3]);
    assert_eq!([0, 1].map(|row| words(&table_of(&empty_1_0()), row)), [7, 6].map(refused));
    assert_eq!([0, 1, 2, 3, 4].map(|row| words(&table_of(&bitmap_1_1()), row)), [7, 7, 7, 7, 6].map(refused));
    assert_eq!([0, 1, 2].map(|row| words(&table_of(&text_1_2()), row)), [7, 7, 6].map(refused));
}
