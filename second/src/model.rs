//! The drawing as a tree of objects with their fields (01, 'Fields'; 02, R-1 and R-2).
//!
//! Floats and doubles are kept as their bits, so that every NaN comes through unchanged.
//! The flow frame flag is no part of the tree: a drawing that is accepted has it 0 everywhere.

use crate::version::Version;

/// The bits of a 32-bit float.
pub type Float = u32;
/// The bits of a 64-bit double.
pub type Double = u64;
/// A string: a run of 16-bit chars.
pub type Chars = Vec<u16>;
/// Six doubles in a fixed order, handed about as one.
pub type Transformation = [Double; 6];

#[derive(Clone, Debug, PartialEq, Eq)]
pub struct Drawing {
    pub version: Version,
    pub settings: Settings,
    pub outer: Group,
}

#[derive(Clone, Debug, PartialEq, Eq)]
pub enum Settings {
    None,
    All(AllSettings),
    /// From 1.3.
    PaperOnly(Paper),
}

#[derive(Clone, Debug, PartialEq, Eq)]
pub struct AllSettings {
    pub grid: bool,
    pub lock: bool,
    pub rulers: bool,
    pub tool: i32,
    pub normal_size: i32,
    pub paper: Paper,
    pub unit: u8,
    pub major: i32,
    pub minor: i32,
}

#[derive(Clone, Debug, PartialEq, Eq)]
pub struct Paper {
    pub id: u8,
    /// There exactly if the id is 18.
    pub own: Option<OwnPaper>,
}

#[derive(Clone, Debug, PartialEq, Eq)]
pub struct OwnPaper {
    pub width: Double,
    pub height: Double,
    /// There exactly below 1.3.
    pub portrait: Option<bool>,
}

#[derive(Clone, Debug, PartialEq, Eq)]
pub enum Object {
    Group(Group),
    Path(Path),
    Text(Text),
    Bitmap(Bitmap),
    /// From 1.5.
    TextPath(TextPath),
}

/// A description is empty below 1.2, where the file has none.
#[derive(Clone, Debug, PartialEq, Eq)]
pub struct Group {
    /// None in an empty group.
    pub objects: Vec<Object>,
    pub description: Chars,
}

#[derive(Clone, Debug, PartialEq, Eq)]
pub struct Path {
    pub line: Paint,
    pub fill: Paint,
    pub style: LineStyle,
    pub outline: Outline,
    pub description: Chars,
}

/// Where a path runs, or a text along one.
#[derive(Clone, Debug, PartialEq, Eq)]
pub struct Outline {
    pub closed: bool,
    /// Below 1.3 this is the first segment's own start point.
    pub start: Point,
    /// Below 1.3 each later segment's own start is the end of the one before, so it is not kept.
    pub segments: Vec<Segment>,
}

#[derive(Clone, Debug, PartialEq, Eq)]
pub struct Text {
    pub style: TextStyle,
    pub paint: Paint,
    pub text: Chars,
    pub description: Chars,
}

#[derive(Clone, Debug, PartialEq, Eq)]
pub struct TextStyle {
    pub family: Chars,
    pub shape: u8,
    pub series: u8,
    pub size: i32,
    pub transformation: Transformation,
    pub latex: Option<Latex>,
}

/// A text along a path: all that a text has, and the outline.
#[derive(Clone, Debug, PartialEq, Eq)]
pub struct TextPath {
    pub text: Text,
    pub outline: Outline,
}

#[derive(Clone, Debug, PartialEq, Eq)]
pub struct Latex {
    pub family: Chars,
    pub series: Chars,
    pub shape: Chars,
    pub size: Chars,
    pub horizontal: u8,
    pub vertical: u8,
    pub alternative: Chars,
}

#[derive(Clone, Debug, PartialEq, Eq)]
pub struct Bitmap {
    pub name: Chars,
    pub latex: Option<BitmapLatex>,
    pub transformation: Transformation,
    pub description: Chars,
}

/// The two strings of a bitmap: the link to the file and the command (000).
#[derive(Clone, Debug, PartialEq, Eq)]
pub struct BitmapLatex {
    pub link: Chars,
    pub command: Chars,
}

#[derive(Clone, Debug, PartialEq, Eq)]
pub enum Paint {
    Plain(Plain),
    Linear(Gradient),
    /// From 1.3.
    Radial(Gradient),
}

#[derive(Clone, Debug, PartialEq, Eq)]
pub struct Gradient {
    pub first: Plain,
    pub second: Plain,
    /// The direction of a linear gradient, the start location of a radial one.
    pub place: i32,
}

/// Components in file order, alpha last.
#[derive(Clone, Debug, PartialEq, Eq)]
pub enum Plain {
    Transparent,
    Rgb([Float; 4]),
    Cmyk([Float; 5]),
    /// From 1.4.
    Grey([Float; 2]),
    /// From 1.4; the hue comes first.
    Hsb([Float; 4]),
}

#[derive(Clone, Debug, PartialEq, Eq)]
pub struct LineStyle {
    pub width: Float,
    /// None where the dash count is 0.
    pub dashes: Option<Dashes>,
    pub cap: u8,
    pub join: u8,
    /// There exactly if the join is 0.
    pub mitre_limit: Option<Float>,
    pub winding: u8,
    pub markers: Markers,
}

#[derive(Clone, Debug, PartialEq, Eq)]
pub struct Dashes {
    pub lengths: Vec<Float>,
    pub offset: Float,
}

#[derive(Clone, Debug, PartialEq, Eq)]
pub enum Markers {
    /// Version 1.0: start and end.
    Arrows { start: Option<Arrow>, end: Option<Arrow> },
    /// From 1.1: start, mid and end, each a chain of composite markers.
    Chains { start: Chain, mid: Chain, end: Chain },
}

/// A marker of 1.0 whose id is not 0.
#[derive(Clone, Debug, PartialEq, Eq)]
pub struct Arrow {
    pub id: u8,
    pub size: Float,
    pub double: bool,
    pub reversed: bool,
}

/// The markers of a chain whose id is not 0; the closing id 0 is not kept.
pub type Chain = Vec<Marker>;

/// A marker from 1.1 whose id is not 0.
#[derive(Clone, Debug, PartialEq, Eq)]
pub struct Marker {
    pub id: u8,
    pub size: Float,
    pub repeat: u8,
    pub reversed: bool,
    /// None where auto-orient is 1.
    pub angle: Option<Float>,
    pub paint: Plain,
    pub overlay: bool,
    /// From 1.4, and only if overlay is 0.
    pub user_offset: Option<Float>,
    /// From 1.4, and only if overlay is 0.
    pub repeat_offset: Option<Float>,
}

#[derive(Clone, Copy, Debug, PartialEq, Eq)]
pub struct Point {
    pub x: Double,
    pub y: Double,
}

#[derive(Clone, Debug, PartialEq, Eq)]
pub enum Segment {
    Bezier([Point; 3]),
    Line(Point),
    Move(Point),
}

impl Segment {
    /// The point that the next segment starts from; what follows a move joins its point.
    pub fn end(&self) -> Point {
        match self {
            Segment::Bezier(points) => points[2],
            Segment::Line(point) | Segment::Move(point) => *point,
        }
    }
}

impl Object {
    pub fn description(&self) -> &Chars {
        match self {
            Object::Group(group) => &group.description,
            Object::Path(path) => &path.description,
            Object::Text(text) => &text.description,
            Object::Bitmap(bitmap) => &bitmap.description,
            Object::TextPath(along) => &along.text.description,
        }
    }

    pub fn description_mut(&mut self) -> &mut Chars {
        match self {
            Object::Group(group) => &mut group.description,
            Object::Path(path) => &mut path.description,
            Object::Text(text) => &mut text.description,
            Object::Bitmap(bitmap) => &mut bitmap.description,
            Object::TextPath(along) => &mut along.text.description,
        }
    }
}
