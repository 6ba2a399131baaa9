//! The table of a drawing (01, 'The table'; 02, R-1) and the answer of the read call.

use crate::answer::Answer;
use crate::layout::{self, Fields, Kind};
use crate::model::{Drawing, Group, Object};
use crate::read;
use crate::version::Version;

/// Words in a row of the contents.
pub const ROW: usize = 4;

/// The used words of the two runs.
#[derive(Clone, Debug, Default, PartialEq, Eq)]
pub struct Table {
    pub contents: Vec<u32>,
    pub bodies: Vec<u32>,
}

/// One word for a byte, flag, char, integer or float, two for a double, high half first.
pub struct Words<'a>(pub &'a mut Vec<u32>);

impl Fields for Words<'_> {
    fn field(&mut self, kind: Kind, value: u64) {
        if kind.width() == 8 {
            self.0.push((value >> 32) as u32);
        }
        self.0.push(value as u32);
    }
}

impl Table {
    pub fn rows(&self) -> u32 {
        (self.contents.len() / ROW) as u32
    }

    pub fn words(&self) -> u32 {
        self.bodies.len() as u32
    }

    /// The row's four words, if it is there: kind, parent, start, length.
    pub fn row(&self, row: u32) -> Option<&[u32]> {
        self.contents.chunks_exact(ROW).nth(row as usize)
    }
}

/// The table that holds this drawing.
pub fn of(drawing: &Drawing) -> Table {
    let mut table = Table::default();
    // The bodies begin with the minor version number, then the settings fields.
    table.bodies.push(u32::from(drawing.version.minor()));
    layout::settings(&mut Words(&mut table.bodies), drawing.version, &drawing.settings);
    add_group(&mut table, drawing.version, &drawing.outer, 0);
    table
}

/// Rows stand in the order of the id chars, bodies in the order in which objects end.
fn add_object(table: &mut Table, version: Version, object: &Object, parent: u32) {
    let kind = match object {
        Object::Group(group) => return add_group(table, version, group, parent),
        Object::Path(_) => 2,
        Object::Text(_) => 3,
        Object::Bitmap(_) => 4,
        Object::TextPath(_) => 5,
    };
    let row = open_row(table, kind, parent);
    let start = table.bodies.len();
    layout::leaf(&mut Words(&mut table.bodies), version, object);
    close_row(table, row, start);
}

/// A group's body is n, flow flag, description, without its child objects.
fn add_group(table: &mut Table, version: Version, group: &Group, parent: u32) {
    let row = open_row(table, 1, parent);
    for object in &group.objects {
        add_object(table, version, object, row);
    }
    let start = table.bodies.len();
    layout::group_count(&mut Words(&mut table.bodies), group);
    layout::ending(&mut Words(&mut table.bodies), version, &group.description);
    close_row(table, row, start);
}

/// A row with its kind and parent; its place in the bodies is known when the object ends.
fn open_row(table: &mut Table, kind: u32, parent: u32) -> u32 {
    let row = table.rows();
    table.contents.extend([kind, parent, 0, 0]);
    row
}

/// The body from `start` to the end of the words so far is this row's.
fn close_row(table: &mut Table, row: u32, start: usize) {
    let place = row as usize * ROW;
    table.contents[place + 2] = start as u32;
    table.contents[place + 3] = (table.bodies.len() - start) as u32;
}

/// The read call: its answer, and in the lent runs what they then hold.
pub fn read_call(file: &[u8], contents: &mut [u32], bodies: &mut [u32]) -> Answer {
    match read::drawing(file) {
        Err(refusal) => Answer::refused(refusal.number, refusal.offset),
        Ok(drawing) => hand_back(&of(&drawing), file.len() as u32, contents, bodies),
    }
}

/// 0, 14 or 15: the offset is the file's length, the counts those needed, whichever is short.
/// Room is whole rows, so a lent length that is no multiple of a row is rounded down.
pub fn hand_back(table: &Table, length: u32, contents: &mut [u32], bodies: &mut [u32]) -> Answer {
    let answer = |number| Answer::new(number, length, table.rows(), table.words());
    if contents.len() / ROW < table.rows() as usize {
        return answer(14);
    }
    if bodies.len() < table.bodies.len() {
        return answer(15);
    }
    contents[..table.contents.len()].copy_from_slice(&table.contents);
    bodies[..table.bodies.len()].copy_from_slice(&table.bodies);
    answer(0)
}
