//! What a plan's objects are made of: kinds, chars, paints, texts and boxes.

use crate::calls::{BoxAnswer, ColourAnswer, PaintAnswer, TextAnswer};
use core::fmt;

/// The kind of an object.
#[derive(Clone, Copy, Debug, PartialEq, Eq, Hash)]
#[repr(u32)]
pub enum Kind {
    Group = 1,
    Path = 2,
    Text = 3,
    Bitmap = 4,
    /// A text along a path.
    TextPath = 5,
}

impl Kind {
    /// The kind of a row of a good table, by the row's first word.
    pub(crate) fn of(word: u32) -> Kind {
        match word {
            1 => Kind::Group,
            2 => Kind::Path,
            3 => Kind::Text,
            4 => Kind::Bitmap,
            5 => Kind::TextPath,
            _ => unreachable!("a good table has no row of the kind {word}"),
        }
    }
}

/// A paint of an object: the line and the fill of a path, the text of a text or of a text along a path.
#[derive(Clone, Copy, Debug, PartialEq, Eq, Hash)]
#[repr(u32)]
pub enum Which {
    Line = 0,
    Fill = 1,
    Text = 2,
}

/// A plain colour. Components are from 0 to 1, but for the hue, which is from 0 up to but not 360.
#[derive(Clone, Copy, Debug, PartialEq)]
pub enum Colour {
    Transparent,
    Rgb { red: f32, green: f32, blue: f32, alpha: f32 },
    Cmyk { cyan: f32, magenta: f32, yellow: f32, black: f32, alpha: f32 },
    Grey { grey: f32, alpha: f32 },
    Hsb { hue: f32, saturation: f32, brightness: f32, alpha: f32 },
}

/// A paint: a colour, or a gradient of two.
#[derive(Clone, Copy, Debug, PartialEq)]
pub enum Paint {
    Plain(Colour),
    /// The direction is 0 to 7.
    Linear {
        from: Colour,
        to: Colour,
        direction: u32,
    },
    /// The location is 0 to 8.
    Radial {
        from: Colour,
        to: Colour,
        location: u32,
    },
}

impl Colour {
    fn of(given: ColourAnswer) -> Colour {
        let [a, b, c, d, e] = given.components;
        match given.kind {
            0 => Colour::Transparent,
            1 => Colour::Rgb { red: a, green: b, blue: c, alpha: d },
            2 => Colour::Cmyk { cyan: a, magenta: b, yellow: c, black: d, alpha: e },
            3 => Colour::Grey { grey: a, alpha: b },
            4 => Colour::Hsb { hue: a, saturation: b, brightness: c, alpha: d },
            kind => unreachable!("the library gives no colour of the kind {kind}"),
        }
    }
}

impl Paint {
    pub(crate) fn of(given: PaintAnswer) -> Paint {
        let (from, to) = (Colour::of(given.first), Colour::of(given.second));
        match given.form {
            0 => Paint::Plain(from),
            1 => Paint::Linear { from, to, direction: given.place },
            2 => Paint::Radial { from, to, location: given.place },
            form => unreachable!("the library gives no paint of the form {form}"),
        }
    }
}

/// Chars in the bodies of a table, one a word: 16-bit units of UTF-16, in which half of a pair may stand alone.
///
/// It prints as text, with the replacement character for a half that stands alone, and compares with a `str` char for char.
#[derive(Clone, Copy, PartialEq, Eq, Hash)]
pub struct Chars<'a>(&'a [u32]);

impl<'a> Chars<'a> {
    pub(crate) fn at(bodies: &'a [u32], start: u32, length: u32) -> Chars<'a> {
        Chars(&bodies[start as usize..][..length as usize])
    }

    /// The words that hold the chars.
    pub fn words(self) -> &'a [u32] {
        self.0
    }

    /// The chars.
    pub fn units(self) -> impl ExactSizeIterator<Item = u16> + Clone + 'a {
        self.0.iter().map(|word| *word as u16)
    }

    /// How many chars there are.
    pub fn len(self) -> usize {
        self.0.len()
    }

    /// Whether there is none.
    pub fn is_empty(self) -> bool {
        self.0.is_empty()
    }
}

impl fmt::Display for Chars<'_> {
    fn fmt(&self, f: &mut fmt::Formatter<'_>) -> fmt::Result {
        use fmt::Write;
        let mut read = char::decode_utf16(self.units());
        read.try_for_each(|c| f.write_char(c.unwrap_or(char::REPLACEMENT_CHARACTER)))
    }
}

impl fmt::Debug for Chars<'_> {
    fn fmt(&self, f: &mut fmt::Formatter<'_>) -> fmt::Result {
        write!(f, "\"{self}\"")
    }
}

impl PartialEq<str> for Chars<'_> {
    fn eq(&self, other: &str) -> bool {
        self.units().eq(other.encode_utf16())
    }
}

impl PartialEq<&str> for Chars<'_> {
    fn eq(&self, other: &&str) -> bool {
        *self == **other
    }
}

/// The two texts of an object.
#[derive(Clone, Copy, Debug, PartialEq, Eq, Hash)]
pub struct Text<'a> {
    /// The LaTeX alternative, which may be empty.
    pub alternative: Chars<'a>,
    /// The text itself.
    pub plain: Chars<'a>,
}

impl<'a> Text<'a> {
    pub(crate) fn of(bodies: &'a [u32], given: TextAnswer) -> Text<'a> {
        Text {
            alternative: Chars::at(bodies, given.alternative_start, given.alternative_length),
            plain: Chars::at(bodies, given.text_start, given.text_length),
        }
    }

    /// What is to be shown: the alternative if it has a char, otherwise the text.
    pub fn shown(self) -> Chars<'a> {
        if self.alternative.is_empty() {
            self.plain
        } else {
            self.alternative
        }
    }
}

/// The least x and y and the greatest x and y of an outline, control points included.
#[derive(Clone, Copy, Debug, PartialEq)]
pub struct Extent {
    pub left: f64,
    pub bottom: f64,
    pub right: f64,
    pub top: f64,
}

impl Extent {
    pub(crate) fn of(given: BoxAnswer) -> Extent {
        let BoxAnswer { left, bottom, right, top, .. } = given;
        Extent { left, bottom, right, top }
    }
}
