//! The fields of the objects that are no groups, after their id char (01, 'Object', 'Paint', 'Line style'; 02, R-1).

use super::{ending, flag, integer, length, string, Fields, Kind};
use crate::model::{
    Arrow, Bitmap, Chain, Double, Float, Gradient, Latex, LineStyle, Marker, Markers, Object, Outline, Paint,
    Path, Plain, Point, Segment, Text, TextPath, TextStyle,
};
use crate::version::{Version, PATH_LETTERS, SEGMENT_LETTERS};

/// All fields after the id char of an object that is no group.
pub fn leaf(out: &mut impl Fields, version: Version, object: &Object) {
    match object {
        Object::Path(inner) => path(out, version, inner),
        Object::Text(inner) => text(out, version, inner),
        Object::Bitmap(inner) => bitmap(out, inner),
        Object::TextPath(inner) => text_path(out, version, inner),
        Object::Group(_) => unreachable!("a group is no leaf"),
    }
    ending(out, version, object.description());
}

fn path(out: &mut impl Fields, version: Version, path: &Path) {
    paint(out, version, &path.line);
    paint(out, version, &path.fill);
    line_style(out, version, &path.style);
    outline(out, version, &path.outline);
}

/// Where a path runs, or a text along one: open or closed, the count, the start point and the segments.
pub fn outline(out: &mut impl Fields, version: Version, outline: &Outline) {
    letter(out, PATH_LETTERS, if outline.closed { b'C' } else { b'O' });
    length(out, 1, outline.segments.len());
    if version.has_path_start() {
        point(out, Kind::Double, outline.start);
    }
    let mut before = outline.start;
    for (place, inner) in outline.segments.iter().enumerate() {
        letter(out, SEGMENT_LETTERS, segment_letter(inner));
        if !version.has_path_start() {
            // The segment's own start; from the second on it joins the end of the one before.
            let kind = if place == 0 { Kind::Double } else { Kind::Joined };
            point(out, kind, before);
        }
        segment_points(out, inner);
        before = inner.end();
    }
}

fn segment_letter(segment: &Segment) -> u8 {
    match segment {
        Segment::Bezier(_) => b'B',
        Segment::Line(_) => b'L',
        Segment::Move(_) => b'M',
    }
}

fn segment_points(out: &mut impl Fields, segment: &Segment) {
    match segment {
        Segment::Bezier(points) => points.iter().for_each(|each| point(out, Kind::Double, *each)),
        Segment::Line(end) | Segment::Move(end) => point(out, Kind::Double, *end),
    }
}

fn text(out: &mut impl Fields, version: Version, text: &Text) {
    text_style(out, &text.style);
    paint(out, version, &text.paint);
    string(out, 1, &text.text);
}

/// Here the paint comes first.
fn text_path(out: &mut impl Fields, version: Version, along: &TextPath) {
    paint(out, version, &along.text.paint);
    text_style(out, &along.text.style);
    string(out, 1, &along.text.text);
    outline(out, version, &along.outline);
}

fn text_style(out: &mut impl Fields, style: &TextStyle) {
    string(out, 0, &style.family);
    byte(out, 0, 1, style.shape);
    byte(out, 0, 1, style.series);
    integer(out, Kind::Integer { low: 0, high: i32::MAX }, style.size);
    doubles(out, &style.transformation);
    flag(out, "LaTeX", style.latex.is_some());
    if let Some(latex) = &style.latex {
        latex_fields(out, latex);
    }
}

fn latex_fields(out: &mut impl Fields, latex: &Latex) {
    string(out, 0, &latex.family);
    string(out, 0, &latex.series);
    string(out, 0, &latex.shape);
    string(out, 0, &latex.size);
    byte(out, 0, 2, latex.horizontal);
    byte(out, 0, 3, latex.vertical);
    string(out, 0, &latex.alternative);
}

fn bitmap(out: &mut impl Fields, bitmap: &Bitmap) {
    string(out, 1, &bitmap.name);
    flag(out, "bitmap", bitmap.latex.is_some());
    if let Some(latex) = &bitmap.latex {
        string(out, 0, &latex.link);
        string(out, 0, &latex.command);
    }
    doubles(out, &bitmap.transformation);
}

/// Any paint: its char, then components or the gradient's two plain paints and integer.
pub fn paint(out: &mut impl Fields, version: Version, paint: &Paint) {
    let allowed = version.paint_letters();
    match paint {
        Paint::Plain(inner) => plain(out, allowed, inner),
        Paint::Linear(inner) => {
            letter(out, allowed, b'G');
            gradient(out, version, inner, 7);
        }
        Paint::Radial(inner) => {
            letter(out, allowed, b'D');
            gradient(out, version, inner, 8);
        }
    }
}

fn gradient(out: &mut impl Fields, version: Version, gradient: &Gradient, highest: i32) {
    plain(out, version.plain_letters(), &gradient.first);
    plain(out, version.plain_letters(), &gradient.second);
    integer(out, Kind::Integer { low: 0, high: highest }, gradient.place);
}

/// A plain paint, where these chars are allowed.
fn plain(out: &mut impl Fields, allowed: &'static [u8], plain: &Plain) {
    match plain {
        Plain::Transparent => letter(out, allowed, b'T'),
        Plain::Rgb(parts) => {
            letter(out, allowed, b'R');
            components(out, parts);
        }
        Plain::Cmyk(parts) => {
            letter(out, allowed, b'C');
            components(out, parts);
        }
        Plain::Grey(parts) => {
            letter(out, allowed, b'Y');
            components(out, parts);
        }
        Plain::Hsb([hue, others @ ..]) => {
            letter(out, allowed, b'S');
            float(out, Kind::Hue, *hue);
            components(out, others);
        }
    }
}

fn line_style(out: &mut impl Fields, version: Version, style: &LineStyle) {
    float(out, Kind::Float, style.width);
    match &style.dashes {
        None => out.field(Kind::DashCount, 0),
        Some(dashes) => {
            out.field(Kind::DashCount, dashes.lengths.len() as u64);
            dashes.lengths.iter().for_each(|each| float(out, Kind::Float, *each));
            float(out, Kind::Float, dashes.offset);
        }
    }
    byte(out, 0, 2, style.cap);
    byte(out, 0, 2, style.join);
    optional_float(out, style.mitre_limit);
    byte(out, 0, 1, style.winding);
    match &style.markers {
        Markers::Arrows { start, end } => {
            arrow(out, version, start);
            arrow(out, version, end);
        }
        Markers::Chains { start, mid, end } => {
            chain(out, version, start);
            chain(out, version, mid);
            chain(out, version, end);
        }
    }
}

/// A marker in 1.0.
fn arrow(out: &mut impl Fields, version: Version, arrow: &Option<Arrow>) {
    let kind = Kind::MarkerId { high: version.highest_marker(), before: None };
    match arrow {
        None => out.field(kind, 0),
        Some(arrow) => {
            out.field(kind, u64::from(arrow.id));
            float(out, Kind::Float, arrow.size);
            flag(out, "double", arrow.double);
            flag(out, "reversed", arrow.reversed);
        }
    }
}

/// The markers of a chain one after the other, closed by an id 0.
fn chain(out: &mut impl Fields, version: Version, chain: &Chain) {
    let high = version.highest_marker();
    for (before, each) in chain.iter().enumerate() {
        out.field(Kind::MarkerId { high, before: Some(before) }, u64::from(each.id));
        marker(out, version, each);
    }
    out.field(Kind::MarkerId { high, before: Some(chain.len()) }, 0);
}

/// What follows an id that is not 0, up to the composite marker.
fn marker(out: &mut impl Fields, version: Version, marker: &Marker) {
    float(out, Kind::Float, marker.size);
    byte(out, 1, 3, marker.repeat);
    flag(out, "reversed", marker.reversed);
    flag(out, "auto-orient", marker.angle.is_none());
    optional_float(out, marker.angle);
    plain(out, version.plain_letters(), &marker.paint);
    flag(out, "overlay", marker.overlay);
    if version.has_marker_offsets() && !marker.overlay {
        for (of, offset) in [("first offset", marker.user_offset), ("second offset", marker.repeat_offset)] {
            flag(out, of, offset.is_some());
            optional_float(out, offset);
        }
    }
}

fn letter(out: &mut impl Fields, allowed: &'static [u8], letter: u8) {
    out.field(Kind::Letter { allowed }, u64::from(letter));
}

fn byte(out: &mut impl Fields, low: i8, high: i8, value: u8) {
    out.field(Kind::Byte { low, high }, u64::from(value));
}

fn float(out: &mut impl Fields, kind: Kind, bits: Float) {
    out.field(kind, u64::from(bits));
}

/// A float that is there only in some drawings.
fn optional_float(out: &mut impl Fields, bits: Option<Float>) {
    if let Some(bits) = bits {
        float(out, Kind::Float, bits);
    }
}

fn components(out: &mut impl Fields, components: &[Float]) {
    components.iter().for_each(|each| float(out, Kind::Component, *each));
}

fn doubles(out: &mut impl Fields, doubles: &[Double]) {
    doubles.iter().for_each(|each| out.field(Kind::Double, *each));
}

fn point(out: &mut impl Fields, kind: Kind, point: Point) {
    out.field(kind, point.x);
    out.field(kind, point.y);
}
