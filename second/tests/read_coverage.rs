//! What the accepted files of the read cases hold between them: every kind of part of every version.

use second::damage::fields::{of_file, Field};
use second::layout::Kind;
use second::make::reads;
use second::model::{
    Chain, Drawing, Marker, Markers, Object, Outline, Paint, Path, Plain, Segment, Settings, Text, TextPath,
};
use second::read;
use second::version::Version;
use std::collections::BTreeSet;

/// What the files of one version show, in words.
type Seen = BTreeSet<String>;

/// The drawings of this version that are accepted.
fn drawings(version: Version) -> Vec<Drawing> {
    let drawings = reads::cases(1).into_iter().filter_map(|case| read::drawing(&case.data).ok());
    drawings.filter(|drawing| drawing.version == version).collect()
}

fn seen(version: Version) -> Seen {
    let mut seen = Seen::new();
    drawings(version).iter().for_each(|drawing| look_at(&mut seen, drawing));
    seen
}

fn see(seen: &mut Seen, what: impl Into<String>) {
    seen.insert(what.into());
}

fn look_at(seen: &mut Seen, drawing: &Drawing) {
    match &drawing.settings {
        Settings::None => see(seen, "settings none"),
        Settings::All(all) => see(seen, format!("settings all, own paper {}", all.paper.own.is_some())),
        Settings::PaperOnly(paper) => see(seen, format!("settings paper, own {}", paper.own.is_some())),
    }
    drawing.outer.objects.iter().for_each(|object| look_at_object(seen, object));
}

fn look_at_object(seen: &mut Seen, object: &Object) {
    if !object.description().is_empty() {
        see(seen, "description");
    }
    match object {
        Object::Group(group) => {
            see(seen, "group");
            group.objects.iter().for_each(|object| look_at_object(seen, object));
        }
        Object::Path(path) => look_at_path(seen, path),
        Object::Text(text) => look_at_text(seen, "text", text),
        Object::Bitmap(bitmap) => see(seen, format!("bitmap, strings {}", bitmap.latex.is_some())),
        Object::TextPath(TextPath { text, outline }) => {
            look_at_text(seen, "along", text);
            look_at_outline(seen, "along", outline);
        }
    }
}

fn look_at_path(seen: &mut Seen, path: &Path) {
    look_at_paint(seen, "line", &path.line);
    look_at_paint(seen, "fill", &path.fill);
    look_at_outline(seen, "path", &path.outline);
    see(seen, format!("dashes {}", path.style.dashes.is_some()));
    see(seen, format!("join {}", path.style.join));
    match &path.style.markers {
        Markers::Arrows { start, end } => {
            see(seen, format!("start {}", usize::from(start.is_some())));
            see(seen, format!("end {}", usize::from(end.is_some())));
        }
        Markers::Chains { start, mid, end } => {
            let chains = [("start", start), ("mid", mid), ("end", end)];
            chains.into_iter().for_each(|(place, chain)| look_at_chain(seen, place, chain));
        }
    }
}

fn look_at_outline(seen: &mut Seen, place: &str, outline: &Outline) {
    see(seen, format!("{place} closed {}", outline.closed));
    for segment in &outline.segments {
        match segment {
            Segment::Bezier(_) => see(seen, format!("{place} segment B")),
            Segment::Line(_) => see(seen, format!("{place} segment L")),
            Segment::Move(_) => see(seen, format!("{place} segment M")),
        }
    }
}

fn look_at_chain(seen: &mut Seen, place: &str, chain: &Chain) {
    see(seen, format!("{place} {}", chain.len()));
    for Marker { repeat, angle, paint, overlay, user_offset, repeat_offset, .. } in chain {
        see(seen, format!("repeat {repeat}"));
        see(seen, format!("angle {}", angle.is_some()));
        see(seen, format!("marker {}", letter(paint)));
        see(seen, format!("overlay {overlay}"));
        see(seen, format!("offsets {} {}", user_offset.is_some(), repeat_offset.is_some()));
    }
}

fn look_at_text(seen: &mut Seen, place: &str, text: &Text) {
    look_at_paint(seen, place, &text.paint);
    match &text.style.latex {
        None => see(seen, format!("{place} without LaTeX")),
        Some(latex) => see(seen, format!("{place} alternative {}", !latex.alternative.is_empty())),
    }
}

fn look_at_paint(seen: &mut Seen, place: &str, paint: &Paint) {
    match paint {
        Paint::Plain(plain) => see(seen, format!("{place} {}", letter(plain))),
        Paint::Linear(gradient) | Paint::Radial(gradient) => {
            let form = if matches!(paint, Paint::Linear(_)) { 'G' } else { 'D' };
            see(seen, format!("{place} {form}"));
            see(seen, format!("{form} first {}", letter(&gradient.first)));
            see(seen, format!("{form} second {}", letter(&gradient.second)));
        }
    }
}

fn letter(plain: &Plain) -> char {
    match plain {
        Plain::Transparent => 'T',
        Plain::Rgb(_) => 'R',
        Plain::Cmyk(_) => 'C',
        Plain::Grey(_) => 'Y',
        Plain::Hsb(_) => 'S',
    }
}

/// The parts that every version has.
const EVERYWHERE: [&str; 11] = [
    "group",
    "bitmap, strings true",
    "bitmap, strings false",
    "dashes true",
    "dashes false",
    "join 0",
    "join 1",
    "join 2",
    "settings none",
    "settings all, own paper true",
    "settings all, own paper false",
];

/// The parts of every object that has an outline, and of every one that has a text.
const OF_OUTLINES: [&str; 5] = ["closed true", "closed false", "segment B", "segment L", "segment M"];
const OF_TEXTS: [&str; 3] = ["without LaTeX", "alternative true", "alternative false"];

/// The objects of a version that have an outline, and those that have a text.
fn outlines(version: Version) -> &'static [&'static str] {
    if version.has_text_paths() {
        &["path", "along"]
    } else {
        &["path"]
    }
}

fn texts(version: Version) -> &'static [&'static str] {
    if version.has_text_paths() {
        &["text", "along"]
    } else {
        &["text"]
    }
}

/// What a version has, from its letters and the tests in `version`.
fn wanted(version: Version) -> Seen {
    let mut wanted: Seen = EVERYWHERE.map(String::from).into();
    for (places, parts) in [(outlines(version), &OF_OUTLINES[..]), (texts(version), &OF_TEXTS[..])] {
        for place in places {
            parts.iter().for_each(|part| see(&mut wanted, format!("{place} {part}")));
        }
    }
    paints_wanted(&mut wanted, version);
    markers_wanted(&mut wanted, version);
    if version.has_descriptions() {
        see(&mut wanted, "description");
    }
    if version.has_settings_byte() {
        see(&mut wanted, "settings paper, own true");
        see(&mut wanted, "settings paper, own false");
    }
    wanted
}

fn paints_wanted(wanted: &mut Seen, version: Version) {
    let letters = |letters: &'static [u8]| letters.iter().map(|letter| char::from(*letter));
    for letter in letters(version.paint_letters()) {
        let places = ["line", "fill"].iter().chain(texts(version));
        places.for_each(|place| see(wanted, format!("{place} {letter}")));
    }
    for plain in letters(version.plain_letters()) {
        for form in letters(version.paint_letters()).filter(|letter| "GD".contains(*letter)) {
            see(wanted, format!("{form} first {plain}"));
            see(wanted, format!("{form} second {plain}"));
        }
        if version.has_chains() {
            see(wanted, format!("marker {plain}"));
        }
    }
}

fn markers_wanted(wanted: &mut Seen, version: Version) {
    let (places, longest) = match version.has_chains() {
        true => (&["start", "mid", "end"][..], 4),
        false => (&["start", "end"][..], 1),
    };
    for place in places {
        (0..=longest).for_each(|count| see(wanted, format!("{place} {count}")));
    }
    let mut marks = Vec::new();
    if version.has_chains() {
        marks.extend(["repeat 1", "repeat 2", "repeat 3", "angle true", "angle false"]);
        marks.extend(["overlay true", "overlay false"]);
    }
    if version.has_marker_offsets() {
        marks.extend(["offsets true true", "offsets true false"]);
        marks.extend(["offsets false true", "offsets false false"]);
    }
    marks.into_iter().for_each(|what| see(wanted, what));
}

#[test]
fn every_version_has_every_kind_of_part() {
    let missing = |version: Version| {
        let missing: Vec<String> = wanted(version).difference(&seen(version)).cloned().collect();
        (!missing.is_empty()).then(|| format!("1.{}: {missing:?}", version.minor()))
    };
    let missing: Vec<String> = Version::ALL.into_iter().filter_map(missing).collect();
    assert!(missing.is_empty(), "{missing:#?}");
}

/// The least and the greatest value of a field that has a range; a marker's id 0 ends a chain.
fn ends(kind: Kind) -> Option<[u64; 2]> {
    match kind {
        Kind::Byte { low, high } => Some([low, high].map(|end| u64::from(end.cast_unsigned()))),
        Kind::MarkerId { high, before } if before != Some(4) => Some([0, u64::from(high.cast_unsigned())]),
        Kind::Integer { low, high } => Some([low, high].map(|end| u64::from(end.cast_unsigned()))),
        _ => None,
    }
}

#[test]
fn every_range_is_met_at_both_ends() {
    for version in Version::ALL {
        let fields: Vec<Field> = drawings(version).iter().flat_map(of_file).collect();
        for field in &fields {
            for end in ends(field.kind).into_iter().flatten() {
                let met = fields.iter().any(|other| other.kind == field.kind && other.value == end);
                assert!(met, "1.{}: {:?} is never {end}", version.minor(), field.kind);
            }
        }
    }
}

/// Quiet NaNs have the highest bit of the fraction, signalling ones have not.
fn is_nan(value: u64, fraction: u32, width: u32, quiet: bool) -> bool {
    let exponent = (1 << (width - 1 - fraction)) - 1;
    let top = value >> (fraction - 1) & 1 == 1;
    value >> fraction & exponent == exponent && value & ((1 << fraction) - 1) != 0 && top == quiet
}

#[test]
fn every_version_has_quiet_and_signalling_nans() {
    for version in Version::ALL {
        let fields: Vec<Field> = drawings(version).iter().flat_map(of_file).collect();
        for quiet in [true, false] {
            let float = |field: &Field| field.kind == Kind::Float && is_nan(field.value, 23, 32, quiet);
            let double = |field: &Field| field.kind == Kind::Double && is_nan(field.value, 52, 64, quiet);
            let joined = |field: &Field| field.kind == Kind::Joined && is_nan(field.value, 52, 64, quiet);
            assert!(fields.iter().any(float) && fields.iter().any(double), "1.{}", version.minor());
            assert_eq!(fields.iter().any(joined), !version.has_path_start(), "1.{}", version.minor());
        }
    }
}
