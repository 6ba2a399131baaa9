//! Sheets of generated tables, and drawings whose sheets reach one thing for certain: many rows, large numbers.

use super::special::{nested, plain_bitmap, plain_drawing};
use super::Maker;
use crate::model::{Drawing, Marker, Markers, Object, Paint, Plain};
use crate::sheet::EDITION;
use crate::table;
use crate::version::{Version, DEEPEST_GROUP, LONGEST_CHAIN, LONGEST_FILE};
use crate::write;

/// The sheet of a good drawing.
pub fn sheet(drawing: &Drawing) -> Vec<u8> {
    let sheet = EDITION.sheet(&table::of(drawing));
    sheet.expect("the numbers of a good drawing's table fit")
}

/// The plainest drawing of as many such objects as a file may have.
fn filled(version: Version, object: Object) -> Drawing {
    let head = write::length(&plain_drawing(version, Vec::new()));
    let count = (LONGEST_FILE - head) / write::object_length(version, &object);
    plain_drawing(version, vec![object; count])
}

/// Rows by the thousand: bitmaps inside as many groups as there may be.
pub fn many_rows(version: Version) -> Drawing {
    filled(version, nested(Object::Bitmap(plain_bitmap(1)), DEEPEST_GROUP - 1))
}

/// From 1.1: more than 32,767 words, so that the word count and starts of bodies take the highest bit of 16. A marker's fields are the
/// shortest that can be repeated.
pub fn many_words(version: Version) -> Drawing {
    let mut maker = Maker::new(1, version);
    let mut path = maker.path();
    let transparent = Paint::Plain(Plain::Transparent);
    (path.line, path.fill) = (transparent.clone(), transparent);
    path.outline.segments = vec![maker.segment_of(b'L')];
    path.description.clear();
    let style = &mut path.style;
    (style.dashes, style.join, style.mitre_limit) = (None, 1, None);
    let chain = vec![short_marker(); LONGEST_CHAIN];
    style.markers = Markers::Chains { start: chain.clone(), mid: chain.clone(), end: chain };
    filled(version, Object::Path(path))
}

/// A marker with no field that can be left out.
fn short_marker() -> Marker {
    Marker {
        id: 1,
        size: 0,
        repeat: 1,
        reversed: false,
        angle: None,
        paint: Plain::Transparent,
        overlay: true,
        user_offset: None,
        repeat_offset: None,
    }
}
