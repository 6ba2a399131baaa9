//! Coordinates that a box is easily wrong about: zeros of both signs, equal ones, ones that differ in a bit, infinities, subnormals, NaNs.

use super::special::plain_drawing;
use super::Maker;
use crate::model::{Double, Drawing, Object, Outline, Point, Segment};
use crate::random::Random;
use crate::version::Version;

pub const ZERO: Double = 0;
pub const MINUS_ZERO: Double = 0x8000_0000_0000_0000;
pub const INFINITY: Double = 0x7FF0_0000_0000_0000;
pub const MINUS_INFINITY: Double = 0xFFF0_0000_0000_0000;

/// The same number with the other sign.
pub fn minus(double: Double) -> Double {
    double ^ MINUS_ZERO
}

/// Quiet and signalling NaNs of both signs: the least and the greatest of each, and payloads in one half only.
pub const NANS: [Double; 12] = [
    0x7FF8_0000_0000_0000,
    0xFFF8_0000_0000_0000,
    0x7FF0_0000_0000_0001,
    0xFFF0_0000_0000_0001,
    0x7FF7_FFFF_FFFF_FFFF,
    0xFFF7_FFFF_FFFF_FFFF,
    0x7FFF_FFFF_FFFF_FFFF,
    0xFFFF_FFFF_FFFF_FFFF,
    0x7FF0_0001_0000_0000,
    0xFFF0_0001_0000_0000,
    0x7FF0_0000_8000_0000,
    0xFFF4_5A5A_A5A5_0F0F,
];

/// Positive numbers whose order is easily lost, and their negatives: the ends of the subnormals, neighbours, halves that alone say nothing.
pub const CLOSE: [Double; 12] = [
    0x0000_0000_0000_0001,
    0x0000_0000_7FFF_FFFF,
    0x0000_0000_8000_0000,
    0x0000_0000_FFFF_FFFF,
    0x0000_0001_0000_0000,
    0x000F_FFFF_FFFF_FFFF,
    0x0010_0000_0000_0000,
    0x3FEF_FFFF_FFFF_FFFF,
    0x3FF0_0000_0000_0000,
    0x3FF0_0000_0000_0001,
    0x3FF0_0000_FFFF_FFFF,
    0x7FEF_FFFF_FFFF_FFFF,
];

/// Makes the coordinates of one sort.
type Sort = fn(&mut Random) -> Double;

/// None of them makes a NaN.
const SORTS: [Sort; 8] = [zero, few, subnormal, infinite, close, plain, plain, any_number];

fn zero(random: &mut Random) -> Double {
    *random.pick(&[ZERO, MINUS_ZERO])
}

/// So few that most are equal.
fn few(random: &mut Random) -> Double {
    let number = *random.pick(&[ZERO, 1.0f64.to_bits(), 2.0f64.to_bits()]);
    any_sign(random, number)
}

fn subnormal(random: &mut Random) -> Double {
    let number = match random.below(3) {
        0 => random.below(3) as Double,
        1 => *random.pick(&CLOSE[..7]),
        _ => random.bits() >> random.within(12, 63),
    };
    any_sign(random, number)
}

/// An infinity every other time.
fn infinite(random: &mut Random) -> Double {
    let number = if random.flag() { INFINITY } else { *random.pick(&[ZERO, CLOSE[0], CLOSE[8], CLOSE[11]]) };
    any_sign(random, number)
}

fn close(random: &mut Random) -> Double {
    let number = *random.pick(&CLOSE);
    any_sign(random, number)
}

/// A number as plans have it.
pub fn plain(random: &mut Random) -> Double {
    (random.within(0, 80_000) as f64 / 16.0 - 2_500.0).to_bits()
}

fn any_number(random: &mut Random) -> Double {
    let bits = random.bits();
    if f64::from_bits(bits).is_nan() {
        INFINITY
    } else {
        bits
    }
}

fn any_sign(random: &mut Random, double: Double) -> Double {
    if random.flag() {
        minus(double)
    } else {
        double
    }
}

/// The coordinates of an outline, each once, in file order: x and y in turn.
pub fn coordinates_mut(outline: &mut Outline) -> Vec<&mut Double> {
    let mut points = vec![&mut outline.start];
    for segment in &mut outline.segments {
        match segment {
            Segment::Bezier(three) => points.extend(three),
            Segment::Line(point) | Segment::Move(point) => points.push(point),
        }
    }
    points.into_iter().flat_map(|Point { x, y }| [x, y]).collect()
}

/// Other coordinates: those of x of one sort, those of y of one. Then a NaN among them every third time, and more seldom many.
pub fn scatter(random: &mut Random, outline: &mut Outline) {
    let sorts = [(); 2].map(|()| *random.pick(&SORTS));
    let nan_once_in = if random.once_in(12) { Some(random.within(1, 4)) } else { None };
    let mut coordinates = coordinates_mut(outline);
    for (place, coordinate) in coordinates.iter_mut().enumerate() {
        let nan = nan_once_in.is_some_and(|times| random.once_in(times));
        **coordinate = if nan { *random.pick(&NANS) } else { sorts[place % 2](random) };
    }
    if random.once_in(3) {
        let place = random.below(coordinates.len());
        *coordinates[place] = *random.pick(&NANS);
    }
}

/// Does this to every outline among the objects and all that they hold.
pub fn each_outline(objects: &mut [Object], change: &mut impl FnMut(&mut Outline)) {
    for object in objects {
        match object {
            Object::Group(group) => each_outline(&mut group.objects, change),
            Object::Path(path) => change(&mut path.outline),
            Object::TextPath(along) => change(&mut along.outline),
            Object::Text(_) | Object::Bitmap(_) => {}
        }
    }
}

/// The drawing with such coordinates everywhere. Nothing else changes, its length neither.
pub fn scattered(random: &mut Random, mut drawing: Drawing) -> Drawing {
    each_outline(&mut drawing.outer.objects, &mut |outline| scatter(random, outline));
    drawing
}

/// A drawing of so many paths, in 1.5 every other one an X.
pub fn paths(seed: u64, version: Version, count: usize) -> Drawing {
    let mut maker = Maker::new(seed, version);
    maker.longest = 6;
    let object = |place: usize| match version.has_text_paths() && place % 2 == 1 {
        true => Object::TextPath(maker.text_path()),
        false => Object::Path(maker.path()),
    };
    let objects = (0..count).map(object).collect();
    scattered(&mut Random::new(seed), plain_drawing(version, objects))
}
