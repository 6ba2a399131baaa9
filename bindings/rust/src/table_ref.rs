//! A plan as a table in memory that is lent, and the objects in it. Nothing here allocates.

use crate::calls;
use crate::parts::{Chars, Extent, Kind, Paint, Text, Which};
use crate::refused::{Reason, Refused};

/// The words of a row of the contents: kind, row of the parent, start and length of the body.
pub const ROW_WORDS: usize = 4;

/// How much room a table needs.
#[derive(Clone, Copy, Debug, PartialEq, Eq)]
pub struct Room {
    /// The words of the contents.
    pub contents: usize,
    /// The words of the bodies.
    pub bodies: usize,
}

/// A plan: a table that the library has accepted, in memory that someone else has.
///
/// Each question about a row checks the whole table again, so asking about every row takes rows times table.
#[derive(Clone, Copy, Debug, PartialEq, Eq, Hash)]
pub struct TableRef<'a> {
    contents: &'a [u32],
    bodies: &'a [u32],
}

impl<'a> TableRef<'a> {
    /// How much room the table of this file needs.
    pub fn room(file: &[u8]) -> Result<Room, Refused> {
        Self::room_asked(calls::read(file, &mut [], &mut []))
    }

    /// How much room the table of this sheet needs.
    pub fn sheet_room(sheet: &[u8]) -> Result<Room, Refused> {
        Self::room_asked(calls::sheet_read(sheet, &mut [], &mut []))
    }

    /// The room that a call which was lent none asks for.
    fn room_asked(answer: calls::Answer) -> Result<Room, Refused> {
        match answer.accepted() {
            Err(Refused { reason: Reason::ContentsTooShort, rows, words, .. }) => {
                Ok(Room { contents: rows as usize * ROW_WORDS, bodies: words as usize })
            }
            Err(refused) => Err(refused),
            Ok(_) => unreachable!("every table has a row"),
        }
    }

    /// Reads a file into the room lent, whose beginning then is the table.
    pub fn read(file: &[u8], contents: &'a mut [u32], bodies: &'a mut [u32]) -> Result<Self, Refused> {
        let read = calls::read(file, contents, bodies).accepted()?;
        Ok(Self::beginning(contents, bodies, read))
    }

    /// Reads a sheet into the room lent, whose beginning then is the table.
    pub fn read_sheet(sheet: &[u8], contents: &'a mut [u32], bodies: &'a mut [u32]) -> Result<Self, Refused> {
        let read = calls::sheet_read(sheet, contents, bodies).accepted()?;
        Ok(Self::beginning(contents, bodies, read))
    }

    /// The table that a call has stored.
    fn beginning(contents: &'a [u32], bodies: &'a [u32], read: calls::Answer) -> Self {
        let rows = read.rows as usize;
        TableRef { contents: &contents[..rows * ROW_WORDS], bodies: &bodies[..read.words as usize] }
    }

    /// The plan of a table, the used words exactly.
    pub fn check(contents: &'a [u32], bodies: &'a [u32]) -> Result<Self, Refused> {
        calls::check(contents, bodies).accepted()?;
        Ok(TableRef { contents, bodies })
    }

    /// A table that the library has accepted already.
    #[cfg(feature = "alloc")]
    pub(crate) fn accepted(contents: &'a [u32], bodies: &'a [u32]) -> Self {
        TableRef { contents, bodies }
    }

    /// The rows, [`ROW_WORDS`] words each.
    pub fn contents(self) -> &'a [u32] {
        self.contents
    }

    /// The words of the head and then of every object, in the order in which objects end.
    pub fn bodies(self) -> &'a [u32] {
        self.bodies
    }

    /// The minor version number of the format, 4 for version 1.4.
    pub fn minor_version(self) -> u32 {
        self.bodies[0]
    }

    /// How many bytes the plan's file has.
    pub fn file_len(self) -> usize {
        calls::check(self.contents, self.bodies).offset as usize
    }

    /// Writes the plan's file into the room lent, and gives how many bytes it has.
    pub fn write_into(self, file: &mut [u8]) -> Result<usize, Refused> {
        Ok(calls::write(self.contents, self.bodies, file).accepted()?.offset as usize)
    }

    /// How many bytes the plan's sheet has.
    pub fn sheet_len(self) -> usize {
        calls::sheet_write(self.contents, self.bodies, &mut []).offset as usize
    }

    /// Writes the plan's sheet into the room lent, and gives how many bytes it has.
    pub fn write_sheet_into(self, sheet: &mut [u8]) -> Result<usize, Refused> {
        Ok(calls::sheet_write(self.contents, self.bodies, sheet).accepted()?.offset as usize)
    }

    /// The objects whose description is the label, char for char, in the order in which they open. Their rows are stored in the room lent,
    /// for which [`TableRef::len`] words are enough.
    pub fn find_into<'b>(
        self,
        label: &[u16],
        entries: &'b mut [u32],
    ) -> Result<Entries<'a, core::iter::Copied<core::slice::Iter<'b, u32>>>, Refused> {
        let found = calls::list(self.contents, self.bodies, label, entries).accepted()?.rows as usize;
        Ok(Entries { table: self, rows: entries[..found].iter().copied() })
    }

    /// How many objects there are.
    #[allow(clippy::len_without_is_empty)] // there is always the outer group
    pub fn len(self) -> usize {
        self.contents.len() / ROW_WORDS
    }

    /// The object of a row.
    pub fn object(self, row: u32) -> Option<Object<'a>> {
        ((row as usize) < self.len()).then_some(Object { table: self, row })
    }

    /// All objects, in the order in which they open; the first is the outer group.
    pub fn objects(self) -> impl DoubleEndedIterator<Item = Object<'a>> + ExactSizeIterator + Clone {
        // a range of usize knows its length
        (0..self.len()).map(move |row| Object { table: self, row: row as u32 })
    }

    /// The line or fill paint of a path, or the text paint of a text. Refused: no such row, no such paint.
    pub fn paint(self, row: u32, which: Which) -> Result<Paint, Refused> {
        let given = calls::paint(self.contents, self.bodies, row, which as u32);
        Refused::unless(given.number, || Paint::of(given))
    }

    /// The texts of a text, or of a text along a path. Refused: no such row, no text.
    pub fn text(self, row: u32) -> Result<Text<'a>, Refused> {
        let given = calls::text(self.contents, self.bodies, row);
        Refused::unless(given.number, || Text::of(self.bodies, given))
    }

    /// The description of an object, which is its label; empty below version 1.2. Refused: no such row.
    pub fn description(self, row: u32) -> Result<Chars<'a>, Refused> {
        let given = calls::description(self.contents, self.bodies, row);
        Refused::unless(given.number, || Chars::at(self.bodies, given.start, given.length))
    }

    /// The box around a path, or a text along a path. Refused: no such row, no path, a coordinate is not a number.
    pub fn extent(self, row: u32) -> Result<Extent, Refused> {
        let given = calls::extent(self.contents, self.bodies, row);
        Refused::unless(given.number, || Extent::of(given))
    }

    /// The objects of these rows, which a listing gave.
    #[cfg(feature = "alloc")]
    pub(crate) fn entries<R>(self, rows: R) -> Entries<'a, R> {
        Entries { table: self, rows }
    }
}

/// The objects that a label was found on.
#[derive(Clone, Debug)]
pub struct Entries<'a, R> {
    table: TableRef<'a>,
    rows: R,
}

impl<'a, R: Iterator<Item = u32>> Iterator for Entries<'a, R> {
    type Item = Object<'a>;

    fn next(&mut self) -> Option<Object<'a>> {
        self.rows.next().map(|row| Object { table: self.table, row })
    }

    fn size_hint(&self) -> (usize, Option<usize>) {
        self.rows.size_hint()
    }
}

impl<R: ExactSizeIterator<Item = u32>> ExactSizeIterator for Entries<'_, R> {}

/// An object of a plan.
#[derive(Clone, Copy, Debug, PartialEq, Eq, Hash)]
pub struct Object<'a> {
    table: TableRef<'a>,
    row: u32,
}

impl<'a> Object<'a> {
    /// Its number, in the order in which objects open; 0 is the outer group.
    pub fn row(self) -> u32 {
        self.row
    }

    fn word(self, place: usize) -> u32 {
        self.table.contents[self.row as usize * ROW_WORDS + place]
    }

    /// What it is.
    pub fn kind(self) -> Kind {
        Kind::of(self.word(0))
    }

    /// The group that holds it; the outer group has none.
    pub fn parent(self) -> Option<Object<'a>> {
        (self.row != 0).then(|| Object { row: self.word(1), ..self })
    }

    /// The groups around it, from the innermost to the outer one.
    pub fn groups(self) -> impl Iterator<Item = Object<'a>> + Clone {
        core::iter::successors(self.parent(), |group| group.parent())
    }

    /// The words of its own fields.
    pub fn body(self) -> &'a [u32] {
        &self.table.bodies[self.word(2) as usize..][..self.word(3) as usize]
    }

    /// Its label, empty where it has none.
    pub fn description(self) -> Chars<'a> {
        self.table.description(self.row).expect("an object has a row of its table")
    }

    /// Its line, fill or text paint, if it has one.
    pub fn paint(self, which: Which) -> Option<Paint> {
        self.table.paint(self.row, which).ok()
    }

    /// Its texts, if it is a text or a text along a path.
    pub fn text(self) -> Option<Text<'a>> {
        self.table.text(self.row).ok()
    }

    /// The box around its outline, if it has one. Refused: a coordinate is not a number.
    pub fn extent(self) -> Result<Option<Extent>, Refused> {
        match self.table.extent(self.row) {
            Err(Refused { reason: Reason::NoPart, .. }) => Ok(None),
            answer => answer.map(Some),
        }
    }
}
