//! A candidate: the drawing that these words would hold if they were a table (01, 'The table').
//!
//! Kinds and parents give the tree and the bodies follow in the order in which objects end, so each
//! row and word is taken once. Ranges, counts, starts and lengths are left to the comparison.

use super::words::Words;
use crate::model::{
    AllSettings, Arrow, Bitmap, BitmapLatex, Chain, Chars, Dashes, Drawing, Gradient, Group, Latex,
    LineStyle, Marker, Markers, Object, Outline, OwnPaper, Paint, Paper, Path, Plain, Segment, Settings,
    Text, TextPath, TextStyle,
};
use crate::table::ROW;
use crate::version::{Version, DEEPEST_GROUP, OWN_PAPER};

/// The rows that are not yet taken, and the words that are not yet taken.
struct Candidate<'a> {
    rows: std::iter::Enumerate<std::slice::ChunksExact<'a, u32>>,
    words: Words<'a>,
    version: Version,
}

pub fn drawing(contents: &[u32], bodies: &[u32]) -> Option<Drawing> {
    let mut words = Words::new(bodies);
    let version = Version::from_minor(words.word()?)?;
    let settings = settings(&mut words, version)?;
    let rows = contents.chunks_exact(ROW).enumerate();
    let mut candidate = Candidate { rows, words, version };
    match candidate.object(1)? {
        Object::Group(outer) => Some(Drawing { version, settings, outer }),
        _ => None,
    }
}

fn settings(words: &mut Words, version: Version) -> Option<Settings> {
    match words.word()? {
        0 => Some(Settings::None),
        1 => Some(Settings::All(AllSettings {
            grid: words.flag()?,
            lock: words.flag()?,
            rulers: words.flag()?,
            tool: words.integer()?,
            normal_size: words.integer()?,
            paper: paper(words, version)?,
            unit: words.byte()?,
            major: words.integer()?,
            minor: words.integer()?,
        })),
        2 => Some(Settings::PaperOnly(paper(words, version)?)),
        _ => None,
    }
}

fn paper(words: &mut Words, version: Version) -> Option<Paper> {
    let id = words.byte()?;
    if id != OWN_PAPER {
        return Some(Paper { id, own: None });
    }
    let width = words.double()?;
    let height = words.double()?;
    let portrait = if version.has_portrait_flag() { Some(words.flag()?) } else { None };
    Some(Paper { id, own: Some(OwnPaper { width, height, portrait }) })
}

impl Candidate<'_> {
    /// The object of the next row; a group here has this depth, and none is deeper than the limit.
    fn object(&mut self, depth: u32) -> Option<Object> {
        let (row, words) = self.rows.next()?;
        match words[0] {
            1 if depth > DEEPEST_GROUP => None,
            1 => Some(Object::Group(self.group(row, depth)?)),
            2 => Some(Object::Path(self.path()?)),
            3 => Some(Object::Text(self.text()?)),
            4 => Some(Object::Bitmap(self.bitmap()?)),
            5 => Some(Object::TextPath(self.text_path()?)),
            _ => None,
        }
    }

    /// The objects of a group are the next rows for as long as their parent is its row.
    fn group(&mut self, row: usize, depth: u32) -> Option<Group> {
        let mut objects = Vec::new();
        while self.next_parent() == Some(row) {
            objects.push(self.object(depth + 1)?);
        }
        // The word for n is compared later with the number of objects found.
        self.words.word()?;
        Some(Group { objects, description: self.ending()? })
    }

    fn next_parent(&self) -> Option<usize> {
        let (_, words) = self.rows.clone().next()?;
        usize::try_from(words[1]).ok()
    }

    /// The flow frame flag, 0 in every drawing and compared later, and from 1.2 the description.
    fn ending(&mut self) -> Option<Chars> {
        self.words.word()?;
        if self.version.has_descriptions() {
            self.words.string()
        } else {
            Some(Chars::new())
        }
    }

    fn path(&mut self) -> Option<Path> {
        Some(Path {
            line: self.paint()?,
            fill: self.paint()?,
            style: self.line_style()?,
            outline: self.outline()?,
            description: self.ending()?,
        })
    }

    fn outline(&mut self) -> Option<Outline> {
        let closed = self.words.letter()? == b'C';
        let n = self.words.word()?;
        // From 1.3 the start stands before the first segment's char, below 1.3 after it.
        let mut start = None;
        if self.version.has_path_start() {
            start = Some(self.words.point()?);
        }
        let mut segments = Vec::new();
        for _ in 0..n {
            let letter = self.words.letter()?;
            if !self.version.has_path_start() {
                // The own starts of later segments are compared later with the ends before them.
                let own = self.words.point()?;
                start = start.or(Some(own));
            }
            segments.push(self.segment(letter)?);
        }
        Some(Outline { closed, start: start?, segments })
    }

    fn segment(&mut self, letter: u8) -> Option<Segment> {
        let words = &mut self.words;
        match letter {
            b'B' => Some(Segment::Bezier([words.point()?, words.point()?, words.point()?])),
            b'L' => Some(Segment::Line(words.point()?)),
            b'M' => Some(Segment::Move(words.point()?)),
            _ => None,
        }
    }

    fn text(&mut self) -> Option<Text> {
        Some(Text {
            style: self.text_style()?,
            paint: self.paint()?,
            text: self.words.string()?,
            description: self.ending()?,
        })
    }

    fn text_path(&mut self) -> Option<TextPath> {
        let paint = self.paint()?;
        let style = self.text_style()?;
        let text = self.words.string()?;
        let outline = self.outline()?;
        let description = self.ending()?;
        Some(TextPath { text: Text { style, paint, text, description }, outline })
    }

    fn text_style(&mut self) -> Option<TextStyle> {
        Some(TextStyle {
            family: self.words.string()?,
            shape: self.words.byte()?,
            series: self.words.byte()?,
            size: self.words.integer()?,
            transformation: self.words.transformation()?,
            latex: if self.words.flag()? { Some(self.latex()?) } else { None },
        })
    }

    fn latex(&mut self) -> Option<Latex> {
        let words = &mut self.words;
        Some(Latex {
            family: words.string()?,
            series: words.string()?,
            shape: words.string()?,
            size: words.string()?,
            horizontal: words.byte()?,
            vertical: words.byte()?,
            alternative: words.string()?,
        })
    }

    fn bitmap(&mut self) -> Option<Bitmap> {
        Some(Bitmap {
            name: self.words.string()?,
            latex: if self.words.flag()? { Some(self.bitmap_latex()?) } else { None },
            transformation: self.words.transformation()?,
            description: self.ending()?,
        })
    }

    fn bitmap_latex(&mut self) -> Option<BitmapLatex> {
        Some(BitmapLatex { link: self.words.string()?, command: self.words.string()? })
    }

    fn paint(&mut self) -> Option<Paint> {
        match self.words.letter()? {
            b'G' => Some(Paint::Linear(self.gradient()?)),
            b'D' => Some(Paint::Radial(self.gradient()?)),
            letter => Some(Paint::Plain(self.components(letter)?)),
        }
    }

    fn gradient(&mut self) -> Option<Gradient> {
        Some(Gradient { first: self.plain()?, second: self.plain()?, place: self.words.integer()? })
    }

    fn plain(&mut self) -> Option<Plain> {
        let letter = self.words.letter()?;
        self.components(letter)
    }

    fn components(&mut self, letter: u8) -> Option<Plain> {
        match letter {
            b'T' => Some(Plain::Transparent),
            b'R' => Some(Plain::Rgb(self.words.array()?)),
            b'C' => Some(Plain::Cmyk(self.words.array()?)),
            b'Y' => Some(Plain::Grey(self.words.array()?)),
            b'S' => Some(Plain::Hsb(self.words.array()?)),
            _ => None,
        }
    }

    fn line_style(&mut self) -> Option<LineStyle> {
        let width = self.words.word()?;
        let dashes = self.dashes()?;
        let cap = self.words.byte()?;
        let join = self.words.byte()?;
        let mitre_limit = if join == 0 { Some(self.words.word()?) } else { None };
        let winding = self.words.byte()?;
        let markers = self.markers()?;
        Some(LineStyle { width, dashes, cap, join, mitre_limit, winding, markers })
    }

    fn dashes(&mut self) -> Option<Option<Dashes>> {
        match self.words.word()? {
            0 => Some(None),
            count => {
                let lengths = self.words.floats(count)?;
                Some(Some(Dashes { lengths, offset: self.words.word()? }))
            }
        }
    }

    fn markers(&mut self) -> Option<Markers> {
        if self.version.has_chains() {
            Some(Markers::Chains { start: self.chain()?, mid: self.chain()?, end: self.chain()? })
        } else {
            Some(Markers::Arrows { start: self.arrow()?, end: self.arrow()? })
        }
    }

    fn arrow(&mut self) -> Option<Option<Arrow>> {
        match self.words.byte()? {
            0 => Some(None),
            id => Some(Some(Arrow {
                id,
                size: self.words.word()?,
                double: self.words.flag()?,
                reversed: self.words.flag()?,
            })),
        }
    }

    fn chain(&mut self) -> Option<Chain> {
        let mut chain = Chain::new();
        loop {
            match self.words.byte()? {
                0 => return Some(chain),
                id => chain.push(self.marker(id)?),
            }
        }
    }

    fn marker(&mut self, id: u8) -> Option<Marker> {
        let size = self.words.word()?;
        let repeat = self.words.byte()?;
        let reversed = self.words.flag()?;
        let auto_orient = self.words.flag()?;
        let angle = if auto_orient { None } else { Some(self.words.word()?) };
        let paint = self.plain()?;
        let overlay = self.words.flag()?;
        let offsets = self.version.has_marker_offsets() && !overlay;
        let user_offset = if offsets { self.offset()? } else { None };
        let repeat_offset = if offsets { self.offset()? } else { None };
        Some(Marker { id, size, repeat, reversed, angle, paint, overlay, user_offset, repeat_offset })
    }

    fn offset(&mut self) -> Option<Option<u32>> {
        if self.words.flag()? {
            Some(Some(self.words.word()?))
        } else {
            Some(None)
        }
    }
}
