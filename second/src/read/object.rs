//! Objects (01, 'Object'; 02, R-1 and R-2): id char, specs, flow frame flag, and from 1.2 a description string.

use super::field::{refusal, Source, Taken};
use super::{paint, style};
use crate::model::{
    Bitmap, BitmapLatex, Chars, Group, Latex, Object, Outline, Path, Point, Segment, Text, TextPath,
    TextStyle,
};
use crate::version::{Version, DEEPEST_GROUP, PATH_LETTERS, SEGMENT_LETTERS};

/// An object inside a group of depth `around`.
fn object(source: &mut Source, version: Version, around: u32) -> Taken<Object> {
    let offset = source.at();
    match source.letter(version.object_letters())? {
        b'G' if around == DEEPEST_GROUP => Err(refusal(10, offset)),
        b'G' => Ok(Object::Group(group(source, version, around + 1)?)),
        b'P' => Ok(Object::Path(path(source, version)?)),
        b'T' => Ok(Object::Text(text(source, version)?)),
        b'X' => Ok(Object::TextPath(text_path(source, version)?)),
        _ => Ok(Object::Bitmap(bitmap(source, version)?)),
    }
}

/// Integer n, not negative, then n objects; the flag and description come after its objects. 'A group may have 0 objects.'
pub fn group(source: &mut Source, version: Version, depth: u32) -> Taken<Group> {
    let n = source.count(0)?;
    let mut objects = Vec::new();
    for _ in 0..n {
        objects.push(object(source, version, depth)?);
    }
    let description = ending(source, version)?;
    Ok(Group { objects, description })
}

/// The flow frame flag, and from 1.2 the description.
fn ending(source: &mut Source, version: Version) -> Taken<Chars> {
    source.flow_flag()?;
    if version.has_descriptions() {
        source.string(0)
    } else {
        Ok(Chars::new())
    }
}

fn path(source: &mut Source, version: Version) -> Taken<Path> {
    Ok(Path {
        line: paint::paint(source, version)?,
        fill: paint::paint(source, version)?,
        style: style::line_style(source, version)?,
        outline: outline(source, version)?,
        description: ending(source, version)?,
    })
}

/// Char `O` or `C`, integer n at least 1, and n segments; from 1.3 with the start point before them.
fn outline(source: &mut Source, version: Version) -> Taken<Outline> {
    let closed = source.letter(PATH_LETTERS)? == b'C';
    let n = source.count(1)?;
    let (start, segments) = if version.has_path_start() {
        let start = source.point()?;
        (start, segments_after_start(source, n)?)
    } else {
        segments_with_starts(source, n)?
    };
    Ok(Outline { closed, start, segments })
}

/// From 1.3 a segment is a char and its points.
fn segments_after_start(source: &mut Source, n: i32) -> Taken<Vec<Segment>> {
    let mut segments = Vec::new();
    for _ in 0..n {
        let letter = source.letter(SEGMENT_LETTERS)?;
        segments.push(points(source, letter)?);
    }
    Ok(segments)
}

/// Below 1.3 the segment's own start comes before its points. The first one is free; each later
/// one has the bits of the end point of the segment before (12 at x or y, whichever is first).
fn segments_with_starts(source: &mut Source, n: i32) -> Taken<(Point, Vec<Segment>)> {
    let letter = source.letter(SEGMENT_LETTERS)?;
    let start = source.point()?;
    let first = points(source, letter)?;
    let mut before = first.end();
    let mut segments = vec![first];
    for _ in 1..n {
        let letter = source.letter(SEGMENT_LETTERS)?;
        source.joined(before.x)?;
        source.joined(before.y)?;
        let segment = points(source, letter)?;
        before = segment.end();
        segments.push(segment);
    }
    Ok((start, segments))
}

/// Three points for B and one for L and M.
fn points(source: &mut Source, letter: u8) -> Taken<Segment> {
    match letter {
        b'B' => Ok(Segment::Bezier([source.point()?, source.point()?, source.point()?])),
        b'L' => Ok(Segment::Line(source.point()?)),
        _ => Ok(Segment::Move(source.point()?)),
    }
}

fn text(source: &mut Source, version: Version) -> Taken<Text> {
    Ok(Text {
        style: text_style(source)?,
        paint: paint::paint(source, version)?,
        text: source.string(1)?,
        description: ending(source, version)?,
    })
}

/// Text paint, style and text as a text has them, then an outline.
fn text_path(source: &mut Source, version: Version) -> Taken<TextPath> {
    let paint = paint::paint(source, version)?;
    let style = text_style(source)?;
    let text = source.string(1)?;
    let outline = outline(source, version)?;
    let description = ending(source, version)?;
    Ok(TextPath { text: Text { style, paint, text, description }, outline })
}

/// Family, shape, series, size, transformation and what the flag of the LaTeX fields begins.
fn text_style(source: &mut Source) -> Taken<TextStyle> {
    Ok(TextStyle {
        family: source.string(0)?,
        shape: source.byte(0, 1)?,
        series: source.byte(0, 1)?,
        // 'A font size below 0 too' is 6.
        size: source.integer_within(0, i32::MAX)?,
        transformation: source.transformation()?,
        latex: latex(source)?,
    })
}

/// A flag; if 1, strings family, series, shape, size, bytes horizontal and vertical, alternative.
fn latex(source: &mut Source) -> Taken<Option<Latex>> {
    if !source.flag()? {
        return Ok(None);
    }
    Ok(Some(Latex {
        family: source.string(0)?,
        series: source.string(0)?,
        shape: source.string(0)?,
        size: source.string(0)?,
        horizontal: source.byte(0, 2)?,
        vertical: source.byte(0, 3)?,
        alternative: source.string(0)?,
    }))
}

fn bitmap(source: &mut Source, version: Version) -> Taken<Bitmap> {
    Ok(Bitmap {
        name: source.string(1)?,
        latex: bitmap_latex(source)?,
        transformation: source.transformation()?,
        description: ending(source, version)?,
    })
}

/// A flag; if 1, two strings.
fn bitmap_latex(source: &mut Source) -> Taken<Option<BitmapLatex>> {
    if !source.flag()? {
        return Ok(None);
    }
    Ok(Some(BitmapLatex { link: source.string(0)?, command: source.string(0)? }))
}
