//! The values that are at fault in a field of a file, each with the number that 01 gives it, and those that a table may not have.

use crate::layout::{three_chars, Kind};
use crate::version::DEEPEST_GROUP;

/// A value that is at fault, and the number of the refusal at that field.
#[derive(Clone, Copy, Debug, PartialEq, Eq)]
pub struct Fault {
    pub value: u64,
    pub number: u32,
}

/// Bytes other than 1 that are true (02, R-4).
pub const OTHER_TRUE: [u64; 5] = [2, 3, 127, 128, 255];

/// The values of a word that are at fault in a table: those of a file's field, and in a flag all but 0 and 1.
pub fn word_faults(kind: Kind, value: u64) -> Vec<u64> {
    match kind {
        Kind::Flag { .. } => OTHER_TRUE.to_vec(),
        _ => faults(kind, value).into_iter().map(|fault| fault.value).collect(),
    }
}

/// All faults that can be put into a field which now has this value.
pub fn faults(kind: Kind, value: u64) -> Vec<Fault> {
    match kind {
        Kind::Signature => all(3, ["JDS", "AJR", "jdr", "JD\0", "\0JD"].map(letters)),
        Kind::VersionLength => all(4, [0, 1, 2, 4, -1, i32::MIN, i32::MAX].map(integer)),
        Kind::VersionChars => all(4, ["1.6", "1.7", "2.0", "0.0", "1,0", "1./", "\0\0\0"].map(letters)),
        Kind::Flag { .. } => Vec::new(),
        Kind::FlowFlag => [all(11, [1]), all(11, OTHER_TRUE)].concat(),
        Kind::Byte { low, high } => byte_faults(low, high),
        Kind::MarkerId { high, .. } => marker_faults(kind, high),
        Kind::Integer { low, high } => integer_faults(low, high),
        Kind::Count { least } => all(8, [least - 1, -1, i32::MIN].map(integer)),
        Kind::Members => all(8, [-1, i32::MIN].map(integer)),
        Kind::DashCount => all(8, [1, 3, -1, -2, i32::MIN, i32::MAX].map(integer)),
        Kind::ObjectId { depth, .. } => object_faults(kind, depth),
        Kind::Letter { .. } => letter_faults(kind),
        Kind::Component => all(9, OUT_OF_COMPONENTS),
        Kind::Hue => all(9, OUT_OF_HUES),
        Kind::Joined => all(12, [value ^ 1, value ^ 1 << 32, value ^ 1 << 63]),
        Kind::Char | Kind::Float | Kind::Double => Vec::new(),
    }
}

/// Just above 1, just below 0, 2, -1, infinities, quiet and signalling NaNs.
const OUT_OF_COMPONENTS: [u64; 9] = [
    0x3F80_0001,
    0x8000_0001,
    0x4000_0000,
    0xBF80_0000,
    0x7F80_0000,
    0xFF80_0000,
    0x7FC0_0000,
    0x7F80_0001,
    0xFFFF_FFFF,
];

/// 360 and the float above it, just below 0, infinities, quiet and signalling NaNs.
const OUT_OF_HUES: [u64; 8] =
    [0x43B4_0000, 0x43B4_0001, 0x8000_0001, 0x7F80_0000, 0xFF80_0000, 0x7FC0_0000, 0x7FA0_0001, 0xFFC0_0000];

/// Chars that are no letter of the layout, or a letter's bytes in another place.
const NO_LETTERS: [u64; 6] = [0x0000, 0xFFFF, 0x4700, 0x0147, 0x0067, 0x0020];

fn all<const N: usize>(number: u32, values: [u64; N]) -> Vec<Fault> {
    values.into_iter().map(|value| Fault { value, number }).collect()
}

fn integer(value: i32) -> u64 {
    u64::from(value.cast_unsigned())
}

/// The three letters as one field.
fn letters(three: &str) -> u64 {
    let mut chars = three.encode_utf16();
    three_chars([(); 3].map(|()| chars.next().unwrap_or(0)))
}

/// A byte is two's complement, so 128 to 255 are below every range.
fn byte_faults(low: i8, high: i8) -> Vec<Fault> {
    let values = [high + 1, low - 1, 127, -128, -56, -1];
    let outside = values.into_iter().filter(|value| !(low..=high).contains(value));
    outside.map(|value| Fault { value: u64::from(value.cast_unsigned()), number: 6 }).collect()
}

/// After four markers an id that is in its list and not 0 is 10.
fn marker_faults(kind: Kind, high: i8) -> Vec<Fault> {
    let mut faults = byte_faults(0, high);
    if kind.is_after_full_chain() {
        faults.extend(all(10, [1, high.cast_unsigned().into()]));
    }
    faults
}

fn integer_faults(low: i32, high: i32) -> Vec<Fault> {
    let values = [low.saturating_sub(1), high.saturating_add(1), -1, i32::MIN, i32::MAX];
    let outside = values.into_iter().filter(|value| !(low..=high).contains(value));
    outside.map(|value| Fault { value: integer(value), number: 6 }).collect()
}

/// Letters that are not allowed here, among them those of later versions, and other chars.
fn letter_faults(kind: Kind) -> Vec<Fault> {
    let letters = b"TRCYSGDOLMBPIXgt".iter().map(|letter| u64::from(*letter));
    let outside = letters.chain(NO_LETTERS).filter(|value| !is_allowed(kind, *value));
    outside.map(|value| Fault { value, number: 7 }).collect()
}

fn is_allowed(kind: Kind, value: u64) -> bool {
    kind.allowed().iter().any(|letter| u64::from(*letter) == value)
}

/// A group below the deepest is 10.
fn object_faults(kind: Kind, depth: u32) -> Vec<Fault> {
    let mut faults = letter_faults(kind);
    if depth > DEEPEST_GROUP {
        faults.extend(all(10, [u64::from(b'G')]));
    }
    faults
}
