//! The fields of a drawing in file order (01, 'Fields'; 02, R-1 and R-2), said once for all that is made of them:
//! the file's bytes, the table's words, and the list of fields that damage is put at.

mod leaf;

use crate::model::{AllSettings, Chars, Drawing, Group, Object, Paper, Settings};
use crate::version::{Version, LONGEST_CHAIN, OUTER_LETTERS};

pub use leaf::{leaf, outline, paint};

/// What a field is, and so how wide it is and which values are at fault in it.
#[derive(Clone, Copy, Debug, PartialEq, Eq)]
pub enum Kind {
    /// `JDR`, one field.
    Signature,
    VersionLength,
    /// The version's three chars, one field.
    VersionChars,
    /// What the flag is of.
    Flag {
        of: &'static str,
    },
    FlowFlag,
    Byte {
        low: i8,
        high: i8,
    },
    /// `before` markers of the chain come before this id; None in 1.0, which has no chains.
    MarkerId {
        high: i8,
        before: Option<usize>,
    },
    Integer {
        low: i32,
        high: i32,
    },
    /// A count or length.
    Count {
        least: i32,
    },
    DashCount,
    /// A group's n, which may be 0.
    Members,
    /// The id char of an object, one of these; a group here would have this depth.
    ObjectId {
        depth: u32,
        allowed: &'static [u8],
    },
    /// A char that has to be one of these.
    Letter {
        allowed: &'static [u8],
    },
    /// A char of a string.
    Char,
    Float,
    Component,
    Hue,
    Double,
    /// A coordinate that has to have the bits of the one before (below 1.3).
    Joined,
}

impl Kind {
    /// An integer of any value.
    pub const ANY_INTEGER: Kind = Kind::Integer { low: i32::MIN, high: i32::MAX };

    /// How many bytes the field has.
    pub fn width(self) -> usize {
        match self {
            Kind::Flag { .. } | Kind::FlowFlag | Kind::Byte { .. } | Kind::MarkerId { .. } => 1,
            Kind::ObjectId { .. } | Kind::Letter { .. } | Kind::Char => 2,
            Kind::VersionLength | Kind::Integer { .. } => 4,
            Kind::Count { .. } | Kind::DashCount | Kind::Members => 4,
            Kind::Float | Kind::Component | Kind::Hue => 4,
            Kind::Signature | Kind::VersionChars => 6,
            Kind::Double | Kind::Joined => 8,
        }
    }

    /// A word for each kind.
    pub fn name(self) -> &'static str {
        match self {
            Kind::Signature => "signature",
            Kind::VersionLength => "version length",
            Kind::VersionChars => "version",
            Kind::Flag { .. } => "flag",
            Kind::FlowFlag => "flow flag",
            Kind::Byte { .. } => "byte",
            Kind::MarkerId { .. } => "marker id",
            Kind::Integer { .. } => "integer",
            Kind::Count { .. } => "count",
            Kind::DashCount => "dash count",
            Kind::Members => "group's count",
            Kind::ObjectId { .. } => "object id",
            Kind::Letter { .. } => "letter",
            Kind::Char => "char",
            Kind::Float => "float",
            Kind::Component => "component",
            Kind::Hue => "hue",
            Kind::Double => "double",
            Kind::Joined => "joined coordinate",
        }
    }

    /// The chars that an id or letter field allows.
    pub fn allowed(self) -> &'static [u8] {
        match self {
            Kind::ObjectId { allowed, .. } | Kind::Letter { allowed } => allowed,
            _ => b"",
        }
    }

    /// Whether one more marker here would be the fifth of its chain.
    pub fn is_after_full_chain(self) -> bool {
        matches!(self, Kind::MarkerId { before: Some(LONGEST_CHAIN), .. })
    }
}

/// Takes fields in file order; the value is the field's bits, in its lowest bytes.
pub trait Fields {
    fn field(&mut self, kind: Kind, value: u64);
}

/// The whole file: its head and one group.
pub fn file(out: &mut impl Fields, drawing: &Drawing) {
    let version = drawing.version;
    signature(out, version);
    settings(out, version, &drawing.settings);
    id_char(out, OUTER_LETTERS, b'G', 1);
    group(out, version, &drawing.outer, 1);
}

/// The chars `JDR`; an integer 3; the version's three chars.
fn signature(out: &mut impl Fields, version: Version) {
    out.field(Kind::Signature, three_chars([b'J', b'D', b'R'].map(u16::from)));
    out.field(Kind::VersionLength, 3);
    out.field(Kind::VersionChars, three_chars(version.chars()));
}

/// Three chars as the bits of one field.
pub fn three_chars(chars: [u16; 3]) -> u64 {
    chars.into_iter().fold(0, |bits, char| bits << 16 | u64::from(char))
}

/// Below 1.3 a flag (1: all settings); from 1.3 a byte 0 none, 1 all, 2 paper only.
pub fn settings(out: &mut impl Fields, version: Version, settings: &Settings) {
    let id = match settings {
        Settings::None => 0,
        Settings::All(_) => 1,
        Settings::PaperOnly(_) => 2,
    };
    if version.has_settings_byte() {
        out.field(Kind::Byte { low: 0, high: 2 }, id);
    } else {
        out.field(Kind::Flag { of: "settings" }, id);
    }
    match settings {
        Settings::None => {}
        Settings::All(all) => all_settings(out, version, all),
        Settings::PaperOnly(only) => paper(out, version, only),
    }
}

fn all_settings(out: &mut impl Fields, version: Version, all: &AllSettings) {
    flag(out, "grid", all.grid);
    flag(out, "lock", all.lock);
    flag(out, "rulers", all.rulers);
    integer(out, Kind::Integer { low: 0, high: 7 }, all.tool);
    integer(out, Kind::ANY_INTEGER, all.normal_size);
    paper(out, version, &all.paper);
    out.field(Kind::Byte { low: 0, high: 3 }, u64::from(all.unit));
    integer(out, Kind::ANY_INTEGER, all.major);
    integer(out, Kind::ANY_INTEGER, all.minor);
}

/// A byte; after 18 come doubles width and height, and below 1.3 a flag.
fn paper(out: &mut impl Fields, version: Version, paper: &Paper) {
    out.field(Kind::Byte { low: 0, high: version.highest_paper() }, u64::from(paper.id));
    if let Some(own) = &paper.own {
        out.field(Kind::Double, own.width);
        out.field(Kind::Double, own.height);
        if let Some(portrait) = own.portrait {
            flag(out, "portrait", portrait);
        }
    }
}

/// An object inside a group, from its id char on.
pub fn object(out: &mut impl Fields, version: Version, object: &Object, depth: u32) {
    id_char(out, version.object_letters(), letter_of(object), depth);
    match object {
        Object::Group(inner) => group(out, version, inner, depth),
        other => leaf(out, version, other),
    }
}

/// The id char of an object.
pub fn letter_of(object: &Object) -> u8 {
    match object {
        Object::Group(_) => b'G',
        Object::Path(_) => b'P',
        Object::Text(_) => b'T',
        Object::Bitmap(_) => b'I',
        Object::TextPath(_) => b'X',
    }
}

fn id_char(out: &mut impl Fields, allowed: &'static [u8], letter: u8, depth: u32) {
    out.field(Kind::ObjectId { depth, allowed }, u64::from(letter));
}

/// Integer n, then n objects; the flag and description of a group come after its objects.
fn group(out: &mut impl Fields, version: Version, group: &Group, depth: u32) {
    group_count(out, group);
    for inner in &group.objects {
        object(out, version, inner, depth + 1);
    }
    ending(out, version, &group.description);
}

/// A group's n.
pub fn group_count(out: &mut impl Fields, group: &Group) {
    out.field(Kind::Members, group.objects.len() as u64);
}

/// The flow frame flag, and from 1.2 the description.
pub fn ending(out: &mut impl Fields, version: Version, description: &Chars) {
    out.field(Kind::FlowFlag, 0);
    if version.has_descriptions() {
        string(out, 0, description);
    }
}

fn flag(out: &mut impl Fields, of: &'static str, value: bool) {
    out.field(Kind::Flag { of }, u64::from(value));
}

fn integer(out: &mut impl Fields, kind: Kind, value: i32) {
    out.field(kind, u64::from(value.cast_unsigned()));
}

/// A count or length of at least `least`.
fn length(out: &mut impl Fields, least: i32, value: usize) {
    out.field(Kind::Count { least }, value as u64);
}

/// A string is an integer n and n chars, each char a field of its own.
fn string(out: &mut impl Fields, least: i32, chars: &Chars) {
    length(out, least, chars.len());
    for char in chars {
        out.field(Kind::Char, u64::from(*char));
    }
}
