//! A plan that owns its memory.

use crate::calls::{self, Answer};
use crate::parts::{Chars, Extent, Paint, Text, Which};
use crate::refused::Refused;
use crate::table_ref::{Entries, Object, Room, TableRef};
use alloc::vec;
use alloc::vec::Vec;

/// A plan: a table that the library has accepted, in memory of its own.
#[derive(Clone, Debug, PartialEq, Eq, Hash)]
pub struct Table {
    contents: Vec<u32>,
    bodies: Vec<u32>,
}

/// The objects that a label was found on.
pub type Found<'a> = Entries<'a, vec::IntoIter<u32>>;

impl Table {
    /// Reads the bytes of a JDR file.
    pub fn read(file: &[u8]) -> Result<Table, Refused> {
        Table::filled(file, TableRef::room(file)?, calls::read)
    }

    /// Reads a sheet, as [`Table::write_sheet`] gives it.
    pub fn read_sheet(sheet: &[u8]) -> Result<Table, Refused> {
        Table::filled(sheet, TableRef::sheet_room(sheet)?, calls::sheet_read)
    }

    /// What a call reads into this much room.
    fn filled(
        source: &[u8],
        room: Room,
        call: fn(&[u8], &mut [u32], &mut [u32]) -> Answer,
    ) -> Result<Table, Refused> {
        let (mut contents, mut bodies) = (vec![0; room.contents], vec![0; room.bodies]);
        call(source, &mut contents, &mut bodies).accepted()?;
        Ok(Table { contents, bodies })
    }

    /// The plan of a table's words.
    pub fn from_words(contents: Vec<u32>, bodies: Vec<u32>) -> Result<Table, Refused> {
        TableRef::check(&contents, &bodies)?;
        Ok(Table { contents, bodies })
    }

    /// The table's words: contents and bodies.
    pub fn into_words(self) -> (Vec<u32>, Vec<u32>) {
        (self.contents, self.bodies)
    }

    /// The same plan, borrowed; it has all calls.
    pub fn view(&self) -> TableRef<'_> {
        TableRef::accepted(&self.contents, &self.bodies)
    }

    /// The bytes of the plan's file: those that it was read from, with each true flag made 1.
    pub fn write(&self) -> Vec<u8> {
        self.view().write()
    }

    /// The plan's table as a sheet: bytes to keep, from which the plan is read again.
    pub fn write_sheet(&self) -> Vec<u8> {
        self.view().write_sheet()
    }

    /// [`TableRef::find`].
    pub fn find(&self, label: &str) -> Found<'_> {
        self.view().find(label)
    }

    /// [`TableRef::objects`].
    pub fn objects(&self) -> impl DoubleEndedIterator<Item = Object<'_>> + ExactSizeIterator + Clone {
        self.view().objects()
    }

    /// [`TableRef::paint`].
    pub fn paint(&self, row: u32, which: Which) -> Result<Paint, Refused> {
        self.view().paint(row, which)
    }

    /// [`TableRef::text`].
    pub fn text(&self, row: u32) -> Result<Text<'_>, Refused> {
        self.view().text(row)
    }

    /// [`TableRef::description`].
    pub fn description(&self, row: u32) -> Result<Chars<'_>, Refused> {
        self.view().description(row)
    }

    /// [`TableRef::extent`].
    pub fn extent(&self, row: u32) -> Result<Extent, Refused> {
        self.view().extent(row)
    }
}

/// What needs memory.
impl<'a> TableRef<'a> {
    /// The bytes of the plan's file.
    pub fn write(self) -> Vec<u8> {
        let mut file = vec![0; self.file_len()];
        self.write_into(&mut file).expect("room for the whole file");
        file
    }

    /// The bytes of the plan's sheet.
    pub fn write_sheet(self) -> Vec<u8> {
        let mut sheet = vec![0; self.sheet_len()];
        self.write_sheet_into(&mut sheet).expect("room for the whole sheet");
        sheet
    }

    /// The objects whose description is the label, char for char, in the order in which they open.
    pub fn find(self, label: &str) -> Found<'a> {
        self.find_chars(&label.encode_utf16().collect::<Vec<u16>>())
    }

    /// [`TableRef::find`] for a label that is no `str`, since half of a pair stands alone in it.
    pub fn find_chars(self, label: &[u16]) -> Found<'a> {
        let mut entries = vec![0; self.len()];
        let listed = calls::list(self.contents(), self.bodies(), label, &mut entries);
        let found = listed.accepted().expect("a good table, and room for every row");
        entries.truncate(found.rows as usize);
        self.entries(entries.into_iter())
    }

    /// A copy that owns its memory.
    pub fn to_table(self) -> Table {
        Table { contents: self.contents().to_vec(), bodies: self.bodies().to_vec() }
    }
}
