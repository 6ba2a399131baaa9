//! Cases of the box question.

use super::{table_data, Case};
use crate::answer::BoxAnswer;
use crate::check;
use crate::extent;
use crate::generate::coordinates::{
    coordinates_mut, minus, paths, plain, scattered, CLOSE, INFINITY, MINUS_INFINITY, MINUS_ZERO, NANS, ZERO,
};
use crate::generate::special::{nested, plain_drawing, sampler};
use crate::generate::{self, Maker};
use crate::model::{Double, Drawing, Object, Outline, Point, Segment};
use crate::random::Random;
use crate::table::{self, Table};
use crate::version::{Version, DEEPEST_GROUP};

/// A table, the rows that are asked about, and what it is.
struct Asked {
    name: String,
    table: Table,
    rows: Vec<u32>,
}

type All = Vec<Asked>;
type Change = fn(&mut Table);

const ONE: Double = 1.0f64.to_bits();
const NINE: Double = 9.0f64.to_bits();
const GREATEST: Double = f64::MAX.to_bits();

pub fn cases(seed: u64) -> Vec<Case> {
    let mut all = All::new();
    for version in Version::ALL {
        let mut maker = Maker::new(seed, version);
        maker.longest = 6;
        for (name, outlines) in named_outlines() {
            let objects = outlines.into_iter().flat_map(|outline| along(&mut maker, outline)).collect();
            add(&mut all, name, &plain_drawing(version, objects));
        }
        deep_and_long(&mut all, &mut maker);
        drawings(&mut all, version, seed);
        refused(&mut all, version, seed);
    }
    all.push(Asked { name: "no table at all".into(), table: Table::default(), rows: vec![0, 1, u32::MAX] });
    all.into_iter().map(case).collect()
}

/// The line's groups: a box for each row, its sides by their bits. A hash of the words would lose where a sign stands: their highest bits
/// only add up in it.
fn case(asked: Asked) -> Case {
    let Asked { name, table, rows } = asked;
    let good = check::good(&table.contents, &table.bodies);
    let group = |row: &u32| {
        let BoxAnswer { number, left, bottom, right, top } = extent::call(good.as_ref(), *row);
        let [left, bottom, right, top] = [left, bottom, right, top].map(f64::to_bits);
        format!("{row}: {number} {left:016x} {bottom:016x} {right:016x} {top:016x}")
    };
    let groups = rows.iter().map(group).collect();
    Case { name, data: table_data(&table, rows), groups }
}

/// All rows, then rows past the end: the first and the second; two whose place in the contents would wrap to that of row 1; the last number.
fn add(all: &mut All, name: &str, drawing: &Drawing) {
    let table = table::of(drawing);
    let past = [table.rows(), table.rows() + 1, 0x4000_0001, 0xC000_0001, u32::MAX];
    let rows = (0..table.rows()).chain(past).collect();
    all.push(Asked { name: format!("1.{}: {name}", drawing.version.minor()), table, rows });
}

/// A path along the outline, and from 1.5 an X with nothing but NaNs in its transformation, which are no coordinates.
fn along(maker: &mut Maker, outline: Outline) -> Vec<Object> {
    let mut objects = Vec::new();
    if maker.version.has_text_paths() {
        let mut along = maker.text_path();
        along.text.style.transformation = [(); 6].map(|()| *maker.random.pick(&NANS));
        along.outline = outline.clone();
        objects.push(Object::TextPath(along));
    }
    let mut path = maker.path();
    path.outline = outline;
    objects.push(Object::Path(path));
    objects
}

fn named_outlines() -> [(&'static str, Vec<Outline>); 6] {
    [
        ("zeros of both signs", zeros()),
        ("infinities", infinities()),
        ("subnormals and neighbours", neighbours()),
        ("equal coordinates", [ONE, MINUS_ZERO, INFINITY, CLOSE[0]].map(|x| through([x; 4], b'L')).to_vec()),
        ("each coordinate is the furthest out", furthest()),
        ("a NaN in each coordinate", nans()),
    ]
}

/// An outline through four points, of lines, of moves or of one curve. The y of each is its x with the other sign, so that what is least
/// of the one is greatest of the other.
fn through(xs: [Double; 4], letter: u8) -> Outline {
    let [start, points @ ..] = xs.map(|x| Point { x, y: minus(x) });
    let segments = match letter {
        b'B' => vec![Segment::Bezier(points)],
        b'L' => points.map(Segment::Line).to_vec(),
        _ => points.map(Segment::Move).to_vec(),
    };
    Outline { closed: letter == b'L', start, segments }
}

/// Each of these by lines, by moves and by a curve.
fn by_each_letter(all: &[[Double; 4]]) -> Vec<Outline> {
    b"BLM".iter().flat_map(|letter| all.iter().map(|xs| through(*xs, *letter))).collect()
}

/// Zeros of both signs in either order, alone and beside another number.
fn zeros() -> Vec<Outline> {
    by_each_letter(&[
        [ZERO, MINUS_ZERO, ZERO, MINUS_ZERO],
        [MINUS_ZERO, ZERO, MINUS_ZERO, ZERO],
        [ZERO, ZERO, ZERO, MINUS_ZERO],
        [MINUS_ZERO, MINUS_ZERO, MINUS_ZERO, ZERO],
        [ONE, ZERO, MINUS_ZERO, ONE],
        [ONE, MINUS_ZERO, ZERO, ONE],
    ])
}

fn infinities() -> Vec<Outline> {
    by_each_letter(&[
        [INFINITY; 4],
        [MINUS_INFINITY; 4],
        [INFINITY, ZERO, MINUS_ZERO, MINUS_INFINITY],
        [ONE, MINUS_INFINITY, INFINITY, ONE],
        [GREATEST, INFINITY, minus(GREATEST), GREATEST],
        [ZERO, ONE, ONE, MINUS_INFINITY],
    ])
}

/// Each number beside the next one, in either order.
fn neighbours() -> Vec<Outline> {
    let pairs = CLOSE.windows(2).flat_map(|pair| [[pair[0], pair[1]], [pair[1], pair[0]]]);
    let each =
        |(place, [one, other]): (usize, [Double; 2])| through([one, other, one, other], b"BLM"[place % 3]);
    let of_two_signs = [CLOSE[0], minus(CLOSE[0]), ZERO, MINUS_ZERO];
    pairs.enumerate().map(each).chain([through(of_two_signs, b'L')]).collect()
}

/// A start point and one segment of each sort.
fn of_each_segment() -> Outline {
    let point = Point { x: ONE, y: ONE };
    let segments = vec![Segment::Bezier([point; 3]), Segment::Line(point), Segment::Move(point)];
    Outline { closed: false, start: point, segments }
}

/// That outline with another number in one of its coordinates; each coordinate in turn.
fn with_each(number: impl Fn(usize) -> Double) -> Vec<Outline> {
    let with = |place: usize| {
        let mut outline = of_each_segment();
        *coordinates_mut(&mut outline)[place] = number(place);
        outline
    };
    (0..coordinates_mut(&mut of_each_segment()).len()).map(with).collect()
}

fn furthest() -> Vec<Outline> {
    [with_each(|_| NINE), with_each(|_| minus(NINE))].concat()
}

/// All of the NaNs, at two places each.
fn nans() -> Vec<Outline> {
    [with_each(|place| NANS[place % NANS.len()]), with_each(|place| NANS[(place + 5) % NANS.len()])].concat()
}

/// A path at the greatest depth; and one of many segments, of which the last goes furthest.
fn deep_and_long(all: &mut All, maker: &mut Maker) {
    let version = maker.version;
    let deep = along(maker, of_each_segment()).into_iter().map(|object| nested(object, DEEPEST_GROUP - 1));
    add(all, "a path at depth 16", &plain_drawing(version, deep.collect()));
    let mut outline = of_each_segment();
    outline.segments.extend((0..100).map(|place| maker.segment_of(b"BLM"[place % 3])));
    coordinates_mut(&mut outline).into_iter().for_each(|coordinate| *coordinate = plain(&mut maker.random));
    let far = 1e9f64.to_bits();
    outline.segments.push(Segment::Line(Point { x: far, y: minus(far) }));
    add(all, "a path of many segments", &plain_drawing(version, along(maker, outline)));
}

/// Drawings of all sorts of objects, and of paths alone.
fn drawings(all: &mut All, version: Version, seed: u64) {
    let mut random = Random::new(seed + u64::from(version.minor()));
    add(all, "every kind of part", &scattered(&mut random, sampler(seed, version)));
    for more in [1, 2, 3] {
        let drawing = generate::with_empty_groups(seed + more, version, 900);
        add(all, "some drawing", &scattered(&mut random, drawing));
        add(all, "some paths", &paths(seed + more, version, 10));
    }
}

/// Tables that no acceptable file gives. They are asked about a group, paths with a NaN and without, and rows past the end.
fn refused(all: &mut All, version: Version, seed: u64) {
    let mut maker = Maker::new(seed + 9, version);
    let outlines = [of_each_segment()].into_iter().chain(nans().into_iter().take(2));
    let objects = outlines.flat_map(|outline| along(&mut maker, outline)).collect();
    let table = table::of(&plain_drawing(version, objects));
    let changes: [(&str, Change); 6] = [
        ("a word less", |table| table.bodies.truncate(table.bodies.len() - 1)),
        ("a word more", |table| table.bodies.push(0)),
        ("a row more", |table| table.contents.extend([4, 0, 0, 0])),
        ("parent of the last row wrong", |table| *table.contents.iter_mut().rev().nth(2).unwrap() += 1),
        ("start of the first path wrong", |table| table.contents[6] += 1),
        ("last word wrong", |table| *table.bodies.last_mut().unwrap() ^= 0x1_0000),
    ];
    for (name, change) in changes {
        let mut table = table.clone();
        change(&mut table);
        let rows = (0..table.rows() + 2).chain([u32::MAX]).collect();
        all.push(Asked { name: format!("1.{}: {name}", version.minor()), table, rows });
    }
}
