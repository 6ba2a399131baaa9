//! Paints, line styles, markers and the objects that are no groups (01, 'Fields'; 02, R-1).

use super::Maker;
use crate::model::{
    Arrow, Bitmap, BitmapLatex, Chain, Dashes, Gradient, Latex, LineStyle, Marker, Markers, Outline, Paint,
    Path, Plain, Segment, Text, TextPath, TextStyle,
};
use crate::version::LONGEST_CHAIN;

impl Maker {
    /// The paint that begins with this letter.
    pub fn paint_of(&mut self, letter: u8) -> Paint {
        match letter {
            b'G' => Paint::Linear(self.gradient(7)),
            b'D' => Paint::Radial(self.gradient(8)),
            _ => Paint::Plain(self.plain_of(letter)),
        }
    }

    /// The plain paint that begins with this letter.
    pub fn plain_of(&mut self, letter: u8) -> Plain {
        match letter {
            b'R' => Plain::Rgb(self.components()),
            b'C' => Plain::Cmyk(self.components()),
            b'Y' => Plain::Grey(self.components()),
            b'S' => {
                let [saturation, brightness, alpha] = self.components();
                Plain::Hsb([self.hue(), saturation, brightness, alpha])
            }
            _ => Plain::Transparent,
        }
    }

    pub fn paint(&mut self) -> Paint {
        let letter = *self.random.pick(self.version.paint_letters());
        self.paint_of(letter)
    }

    pub fn plain(&mut self) -> Plain {
        let letter = *self.random.pick(self.version.plain_letters());
        self.plain_of(letter)
    }

    fn gradient(&mut self, highest: usize) -> Gradient {
        let place = self.random.within(0, highest) as i32;
        Gradient { first: self.plain(), second: self.plain(), place }
    }

    /// A line style whose chains have at most `most` markers.
    pub fn line_style(&mut self, most: usize) -> LineStyle {
        let join = self.random.byte(2);
        LineStyle {
            width: self.float(),
            dashes: self.any_dashes(),
            cap: self.random.byte(2),
            join,
            mitre_limit: if join == 0 { Some(self.float()) } else { None },
            winding: self.random.byte(1),
            markers: self.markers(most),
        }
    }

    /// No dashes half of the time.
    fn any_dashes(&mut self) -> Option<Dashes> {
        match self.random.below(6) {
            0..=2 => None,
            pairs => Some(self.dashes(pairs - 2)),
        }
    }

    /// So many pairs of dash lengths, and the offset.
    pub fn dashes(&mut self, pairs: usize) -> Dashes {
        let lengths = (0..2 * pairs).map(|_| self.float()).collect();
        Dashes { lengths, offset: self.float() }
    }

    fn markers(&mut self, most: usize) -> Markers {
        if self.version.has_chains() {
            Markers::Chains {
                start: self.any_chain(most),
                mid: self.any_chain(most),
                end: self.any_chain(most),
            }
        } else {
            Markers::Arrows { start: self.any_arrow(), end: self.any_arrow() }
        }
    }

    /// A marker of 1.0 every other time.
    fn any_arrow(&mut self) -> Option<Arrow> {
        if self.random.flag() {
            Some(self.arrow())
        } else {
            None
        }
    }

    /// A marker of 1.0 whose id is not 0.
    pub fn arrow(&mut self) -> Arrow {
        Arrow {
            id: self.marker_id(),
            size: self.float(),
            double: self.random.flag(),
            reversed: self.random.flag(),
        }
    }

    /// An id that is not 0.
    fn marker_id(&mut self) -> u8 {
        let highest = usize::from(self.version.highest_marker().cast_unsigned());
        self.random.within(1, highest) as u8
    }

    /// A chain that is often empty.
    fn any_chain(&mut self, most: usize) -> Chain {
        let count = if self.random.flag() { 0 } else { self.random.within(0, most) };
        self.chain(count)
    }

    /// A chain of so many markers; more than 4 make no good drawing.
    pub fn chain(&mut self, count: usize) -> Chain {
        (0..count).map(|_| self.marker()).collect()
    }

    fn marker(&mut self) -> Marker {
        let overlay = self.random.flag();
        let offsets = self.version.has_marker_offsets() && !overlay;
        Marker {
            id: self.marker_id(),
            size: self.float(),
            repeat: self.random.within(1, 3) as u8,
            reversed: self.random.flag(),
            angle: self.optional_float(true),
            paint: self.plain(),
            overlay,
            user_offset: self.optional_float(offsets),
            repeat_offset: self.optional_float(offsets),
        }
    }

    /// Some float every other time, where one may stand at all.
    fn optional_float(&mut self, may: bool) -> Option<u32> {
        if may && self.random.flag() {
            Some(self.float())
        } else {
            None
        }
    }

    pub fn path(&mut self) -> Path {
        let most = if self.random.once_in(4) { LONGEST_CHAIN } else { 1 };
        let count = self.segment_count();
        Path {
            line: self.paint(),
            fill: self.paint(),
            style: self.line_style(most),
            outline: self.outline(count),
            description: self.description(),
        }
    }

    /// Most outlines are short.
    fn segment_count(&mut self) -> usize {
        match self.random.below(8) {
            0 => self.random.within(1, 12),
            _ => self.random.within(1, 3),
        }
    }

    /// An outline of so many segments.
    fn outline(&mut self, count: usize) -> Outline {
        Outline {
            closed: self.random.flag(),
            start: self.point(),
            segments: (0..count).map(|_| self.segment()).collect(),
        }
    }

    fn segment(&mut self) -> Segment {
        let letter = *self.random.pick(b"BLM");
        self.segment_of(letter)
    }

    /// The segment that begins with this letter.
    pub fn segment_of(&mut self, letter: u8) -> Segment {
        match letter {
            b'B' => Segment::Bezier([(); 3].map(|()| self.point())),
            b'L' => Segment::Line(self.point()),
            _ => Segment::Move(self.point()),
        }
    }

    pub fn text(&mut self) -> Text {
        Text {
            style: self.text_style(),
            paint: self.paint(),
            text: self.string(1),
            description: self.description(),
        }
    }

    fn text_style(&mut self) -> TextStyle {
        let size = match self.random.below(6) {
            0 => i32::MAX,
            1 => 0,
            _ => self.random.within(1, 72) as i32,
        };
        TextStyle {
            family: self.string(0),
            shape: self.random.byte(1),
            series: self.random.byte(1),
            size,
            transformation: self.transformation(),
            latex: if self.random.flag() { Some(self.latex()) } else { None },
        }
    }

    /// From 1.5; below it makes no good drawing.
    pub fn text_path(&mut self) -> TextPath {
        let count = self.segment_count();
        TextPath { text: self.text(), outline: self.outline(count) }
    }

    pub fn latex(&mut self) -> Latex {
        Latex {
            family: self.string(0),
            series: self.string(0),
            shape: self.string(0),
            size: self.string(0),
            horizontal: self.random.byte(2),
            vertical: self.random.byte(3),
            alternative: self.string(0),
        }
    }

    pub fn bitmap(&mut self) -> Bitmap {
        Bitmap {
            name: self.string(1),
            latex: if self.random.flag() { Some(self.bitmap_latex()) } else { None },
            transformation: self.transformation(),
            description: self.description(),
        }
    }

    pub fn bitmap_latex(&mut self) -> BitmapLatex {
        BitmapLatex { link: self.string(0), command: self.string(0) }
    }
}
