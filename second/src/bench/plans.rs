//! The plans that are measured, the same in every run.

use second::generate::coordinates::{coordinates_mut, plain};
use second::generate::special::{nested, plain_drawing};
use second::generate::{self, chars, Maker};
use second::model::{Drawing, Object, Segment};
use second::version::{Version, DEEPEST_GROUP};
use second::write;

/// About how long a large plan is; the limit is 65,535 bytes.
const LARGE: usize = 60_000;

/// The versions that are measured. 1.5 is left out, so that figures stay comparable with those taken before it.
const MEASURED: [Version; 5] = {
    let [measured @ .., _] = Version::ALL;
    measured
};

/// Makes the plans of a sort.
pub type Make = fn() -> Vec<Drawing>;

/// The plans for the box: row 1 is a path, and its points are nearly all that there is.
pub const OUTLINE: &str = "outline";

pub const ALL: [(&str, Make); 5] =
    [("small", small), ("paths", paths), ("texts", texts), ("nested", deep), (OUTLINE, outlines)];

/// Plans of some hundred bytes, of all the versions.
fn small() -> Vec<Drawing> {
    (0..40).map(|seed| generate::drawing(seed, MEASURED[seed as usize % MEASURED.len()], 300)).collect()
}

/// One plan of each version, filled with objects of one sort.
fn filled(object: fn(&mut Maker) -> Object) -> Vec<Drawing> {
    let of_version = |version| {
        let mut maker = Maker::new(1, version);
        let mut objects = Vec::new();
        let mut used = 0;
        while used < LARGE {
            let next = object(&mut maker);
            used += write::object_length(version, &next);
            objects.push(next);
        }
        plain_drawing(version, objects)
    };
    MEASURED.into_iter().map(of_version).collect()
}

/// Paths of a hundred segments.
fn paths() -> Vec<Drawing> {
    filled(|maker| {
        let mut path = maker.path();
        path.outline.segments = segments(maker, 100);
        Object::Path(path)
    })
}

fn segments(maker: &mut Maker, count: usize) -> Vec<Segment> {
    let letters: Vec<u8> = (0..count).map(|_| *maker.random.pick(b"BLM")).collect();
    letters.into_iter().map(|letter| maker.segment_of(letter)).collect()
}

/// One path that fills the plan. Its coordinates are plain numbers, since a NaN would be refused.
fn outlines() -> Vec<Drawing> {
    filled(|maker| {
        let mut path = maker.path();
        while write::object_length(maker.version, &Object::Path(path.clone())) < LARGE {
            path.outline.segments.extend(segments(maker, 20));
        }
        let coordinates = coordinates_mut(&mut path.outline);
        coordinates.into_iter().for_each(|coordinate| *coordinate = plain(&mut maker.random));
        Object::Path(path)
    })
}

/// Texts of three hundred chars, half of them with LaTeX fields.
fn texts() -> Vec<Drawing> {
    filled(|maker| {
        let mut text = maker.text();
        text.text = chars(&"Machine 7, hall 3. ".repeat(16));
        Object::Text(text)
    })
}

/// Bitmaps, each inside as many groups as there may be.
fn deep() -> Vec<Drawing> {
    filled(|maker| nested(Object::Bitmap(maker.bitmap()), DEEPEST_GROUP - 1))
}
