//! The box around a path, or around the path part of an X (02, R-5).

use crate::answer::BoxAnswer;
use crate::ask::object;
use crate::check::Good;
use crate::layout::{self, Fields, Kind};
use crate::list::Part;
use crate::model::Outline;
use crate::version::Version;

/// The box question: 16 for a bad table, 6 for a row out of range, 7 for a row with no path, 20 if any coordinate is a NaN, in that order.
pub fn call(good: Option<&Good>, row: u32) -> BoxAnswer {
    let found = object(good, row).and_then(|(good, object)| {
        let outline = outline_of(&object.part).ok_or(7u32)?;
        around(good.drawing.version, outline)
    });
    found.unwrap_or_else(BoxAnswer::refused)
}

/// Where the object runs, if it has a path.
pub fn outline_of<'a>(part: &Part<'a>) -> Option<&'a Outline> {
    match part {
        Part::Path(path) => Some(&path.outline),
        Part::TextPath(along) => Some(&along.outline),
        Part::Group | Part::Text(_) | Part::Bitmap => None,
    }
}

/// 'Over the start point and every point of every segment, control points included'; or the refusal's number.
pub fn around(version: Version, outline: &Outline) -> Result<BoxAnswer, u32> {
    let coordinates = coordinates(version, outline);
    if coordinates.iter().any(|coordinate| coordinate.is_nan()) {
        return Err(20);
    }
    let xs = || coordinates.iter().copied().step_by(2);
    let ys = || coordinates.iter().copied().skip(1).step_by(2);
    Ok(BoxAnswer {
        number: 0,
        left: least(xs()),
        bottom: least(ys()),
        right: greatest(xs()),
        top: greatest(ys()),
    })
}

/// Takes the doubles among the fields, and no others.
struct Doubles(Vec<f64>);

impl Fields for Doubles {
    fn field(&mut self, kind: Kind, value: u64) {
        if matches!(kind, Kind::Double | Kind::Joined) {
            self.0.push(f64::from_bits(value));
        }
    }
}

/// The coordinates in file order, x and y in turn: an outline has no other doubles. Below 1.3 each segment's own start is among them.
fn coordinates(version: Version, outline: &Outline) -> Vec<f64> {
    let mut doubles = Doubles(Vec::new());
    layout::outline(&mut doubles, version, outline);
    doubles.0
}

/// 'Of equal coordinates the first in file order is kept', 0 and -0 among them.
fn least(coordinates: impl Iterator<Item = f64>) -> f64 {
    let kept = coordinates.reduce(|kept, next| if next < kept { next } else { kept });
    kept.expect("a path has a point")
}

fn greatest(coordinates: impl Iterator<Item = f64>) -> f64 {
    let kept = coordinates.reduce(|kept, next| if next > kept { next } else { kept });
    kept.expect("a path has a point")
}
