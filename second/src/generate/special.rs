//! Drawings that reach one thing for certain: every kind of part, a depth, a chain, a length.

use super::{chars, Maker};
use crate::model::{
    Bitmap, Chars, Drawing, Group, LineStyle, Markers, Object, Outline, Settings, Text, TextPath,
};
use crate::version::{Version, DEEPEST_GROUP, LONGEST_CHAIN};
use crate::write;

/// One drawing with every kind of object, paint, marker, segment and optional field of its version,
/// groups down to the deepest, an empty group, and a full chain.
pub fn sampler(seed: u64, version: Version) -> Drawing {
    sample(Maker::new(seed, version))
}

/// The same with a NaN in every float and double that is free.
pub fn nan_sampler(seed: u64, version: Version) -> Drawing {
    sample(Maker { only_nans: true, ..Maker::new(seed, version) })
}

fn sample(mut maker: Maker) -> Drawing {
    let version = maker.version;
    maker.longest = 6;
    let mut all = maker.all_settings();
    all.paper = maker.own_paper();
    let mut objects = every_path(&mut maker);
    objects.extend(every_text(&mut maker, 0).into_iter().map(Object::Text));
    objects.extend(every_bitmap(&mut maker));
    if version.has_text_paths() {
        objects.extend(every_text_path(&mut maker));
    }
    let leaf = Object::Bitmap(maker.bitmap());
    objects.push(nested(leaf, DEEPEST_GROUP - 1));
    objects.push(Object::Group(maker.group(2, 200)));
    objects.push(Object::Group(Group { objects: Vec::new(), description: maker.description() }));
    let outer = Group { objects, description: maker.description() };
    Drawing { version, settings: Settings::All(all), outer }
}

/// A path for every paint as line and as fill, with chains of 0 to 4 markers and all segments.
fn every_path(maker: &mut Maker) -> Vec<Object> {
    let letters = maker.version.paint_letters();
    let mut paths = Vec::new();
    for (place, letter) in letters.iter().enumerate() {
        let other = letters[(place + 1) % letters.len()];
        let mut path = maker.path();
        path.line = maker.paint_of(*letter);
        path.fill = maker.paint_of(other);
        every_segment(maker, &mut path.outline, place);
        every_style(maker, &mut path.style, place);
        paths.push(Object::Path(path));
    }
    paths
}

/// All segments, closed every other time.
fn every_segment(maker: &mut Maker, outline: &mut Outline, place: usize) {
    outline.segments = b"BLMLBM".iter().map(|each| maker.segment_of(*each)).collect();
    outline.closed = place % 2 == 0;
}

/// Joins with and without a mitre limit, with and without dashes, chains of three different lengths.
fn every_style(maker: &mut Maker, style: &mut LineStyle, place: usize) {
    style.join = place as u8 % 3;
    style.mitre_limit = if style.join == 0 { Some(maker.float()) } else { None };
    style.dashes = if place.is_multiple_of(2) { None } else { Some(maker.dashes(place)) };
    match &mut style.markers {
        Markers::Arrows { start, end } => {
            *start = if place.is_multiple_of(2) { Some(maker.arrow()) } else { None };
            *end = if place.is_multiple_of(3) { Some(maker.arrow()) } else { None };
        }
        Markers::Chains { start, mid, end } => {
            *start = maker.chain(place % (LONGEST_CHAIN + 1));
            *mid = maker.chain((place + 4) % (LONGEST_CHAIN + 1));
            *end = maker.chain((place + 2) % (LONGEST_CHAIN + 1));
        }
    }
}

/// Texts without LaTeX fields, with them, and with an empty alternative, in turn from the one of this number; every paint.
fn every_text(maker: &mut Maker, first: usize) -> Vec<Text> {
    let letters = maker.version.paint_letters();
    let mut texts = Vec::new();
    for (turn, letter) in (first..).zip(letters) {
        let mut text = maker.text();
        text.paint = maker.paint_of(*letter);
        text.style.latex = match turn % 3 {
            0 => None,
            _ => Some(maker.latex()),
        };
        if let Some(latex) = &mut text.style.latex {
            latex.alternative = if turn % 3 == 1 { chars("alt") } else { Chars::new() };
        }
        texts.push(text);
    }
    texts
}

/// Such texts along paths, but that paints which had no LaTeX fields before have them now.
fn every_text_path(maker: &mut Maker) -> Vec<Object> {
    let mut objects = Vec::new();
    for (place, text) in every_text(maker, 1).into_iter().enumerate() {
        let mut along = TextPath { text, ..maker.text_path() };
        every_segment(maker, &mut along.outline, place);
        objects.push(Object::TextPath(along));
    }
    objects
}

/// A bitmap without the two strings and one with them.
fn every_bitmap(maker: &mut Maker) -> Vec<Object> {
    let mut with = maker.bitmap();
    with.latex = Some(maker.bitmap_latex());
    let mut without = maker.bitmap();
    without.latex = None;
    vec![Object::Bitmap(with), Object::Bitmap(without)]
}

/// The object inside so many groups, each inside the other.
pub fn nested(object: Object, groups: u32) -> Object {
    (0..groups).fold(object, |inner, _| group(vec![inner]))
}

/// A group without a description.
fn group(objects: Vec<Object>) -> Object {
    Object::Group(Group { objects, description: Chars::new() })
}

/// So many empty groups.
pub fn empty_groups(count: usize) -> Vec<Object> {
    vec![group(Vec::new()); count]
}

/// The plainest drawing: a group of these objects, no settings.
pub fn plain_drawing(version: Version, objects: Vec<Object>) -> Drawing {
    let outer = Group { objects, description: Chars::new() };
    Drawing { version, settings: Settings::None, outer }
}

/// A bitmap whose name has so many chars.
pub fn plain_bitmap(name: usize) -> Bitmap {
    Bitmap {
        name: vec![u16::from(b'a'); name],
        latex: None,
        transformation: [1.0f64, 0.0, 0.0, 1.0, 0.0, 0.0].map(f64::to_bits),
        description: Chars::new(),
    }
}

/// A drawing whose deepest group has this depth, the same description at every depth.
pub fn of_depth(version: Version, depth: u32, description: &Chars) -> Drawing {
    let object = nested(Object::Bitmap(plain_bitmap(1)), depth - 1);
    described(plain_drawing(version, vec![object]), description)
}

/// A drawing with empty groups at every depth from 2 to this one, before and behind the group that holds the deeper ones; the same
/// description at every depth. Of depth 1 it is the outer group alone, and empty.
pub fn empty_to_depth(version: Version, depth: u32, description: &Chars) -> Drawing {
    let around = |inner| vec![group(Vec::new()), group(inner), group(Vec::new())];
    let objects = (1..depth).fold(Vec::new(), |inner, _| around(inner));
    described(plain_drawing(version, objects), description)
}

/// The drawing with this description everywhere, where its version has descriptions.
fn described(mut drawing: Drawing, description: &Chars) -> Drawing {
    if drawing.version.has_descriptions() {
        drawing.outer.description = description.clone();
        drawing.outer.objects.iter_mut().for_each(|each| describe(each, description));
    }
    drawing
}

/// Gives an object and all that it holds this description.
fn describe(object: &mut Object, description: &Chars) {
    *object.description_mut() = description.clone();
    if let Object::Group(group) = object {
        group.objects.iter_mut().for_each(|each| describe(each, description));
    }
}

/// A path with chains of these lengths (from 1.1).
pub fn with_chains(seed: u64, version: Version, lengths: [usize; 3]) -> Drawing {
    let mut maker = Maker::new(seed, version);
    let mut path = maker.path();
    path.style.markers = Markers::Chains {
        start: maker.chain(lengths[0]),
        mid: maker.chain(lengths[1]),
        end: maker.chain(lengths[2]),
    };
    plain_drawing(version, vec![Object::Path(path)])
}

/// A text along a path, with LaTeX fields or without. Below 1.5 it is no good drawing.
pub fn with_text_path(seed: u64, version: Version, latex: bool) -> Drawing {
    let mut maker = Maker::new(seed, version);
    let mut along = maker.text_path();
    along.text.style.latex = latex.then(|| maker.latex());
    plain_drawing(version, vec![Object::TextPath(along)])
}

/// The drawing with one more bitmap, its name so long that the file has exactly this length.
/// A group around it makes the length odd or even as needed, since a group's own fields are odd.
pub fn padded(mut drawing: Drawing, length: usize) -> Drawing {
    let version = drawing.version;
    for groups in [0, 1] {
        let with_name = |name| nested(Object::Bitmap(plain_bitmap(name)), groups);
        let used = write::length(&drawing) + write::object_length(version, &with_name(1));
        if used <= length && (length - used).is_multiple_of(2) {
            drawing.outer.objects.push(with_name(1 + (length - used) / 2));
            return drawing;
        }
    }
    drawing
}
