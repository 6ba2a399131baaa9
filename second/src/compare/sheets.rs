//! What a round asks about sheets: that of the drawing's table, damaged ones, and the sheets of damaged tables.

use super::calls::{Asked, Comparer};
use super::rounds::{byte_rooms, table_rooms, times};
use second::damage::fields::Field;
use second::damage::{sheets, tables};
use second::generate::sheets::{many_rows, many_words};
use second::sheet::EDITION;
use second::table::{self, Table};
use second::version::Version;

/// The table is good or not; the fields are those of its bodies.
pub fn round(comparer: &mut Comparer, table: &Table, fields: &[Field]) {
    if !cfg!(any(feature = "sheet_write", feature = "sheet_read")) {
        return;
    }
    in_rooms(comparer, table);
    read_damaged(comparer, table, fields);
    write_damaged(comparer, table, fields);
    if comparer.random.once_in(300) {
        long(comparer, table);
    }
}

/// Both calls, with rooms of every sort.
fn in_rooms(comparer: &mut Comparer, table: &Table) {
    let sheet = sheets::careless(table);
    for (contents, bodies) in table_rooms(&mut comparer.random, table) {
        comparer.sheet_read(&sheet, contents, bodies);
    }
    let mut asked = Asked::new(&mut comparer.random, table.clone());
    for room in byte_rooms(&mut comparer.random, sheet.len()) {
        comparer.sheet_write(&mut asked, room);
    }
}

fn read_damaged(comparer: &mut Comparer, table: &Table, fields: &[Field]) {
    let (contents, bodies) = (table.contents.len(), table.bodies.len());
    let length = EDITION.length(table.rows() as usize, bodies);
    for _ in 0..times(length, 30) {
        let damaged = sheets::any(&mut comparer.random, table, fields);
        let answer = comparer.sheet_read(&damaged, contents + 40, bodies + 200);
        if answer.number == 0 && comparer.random.once_in(3) {
            accepted(comparer, &damaged);
        }
    }
    if length < 1_000 && comparer.random.once_in(30) {
        every_cut(comparer, table);
        every_number(comparer, table);
    }
    if comparer.random.once_in(30) {
        for (_, damaged) in sheets::every(table) {
            comparer.sheet_read(&damaged, contents + 8, bodies + 8);
        }
    }
}

/// A damaged sheet that is one all the same: its table is written as that sheet.
fn accepted(comparer: &mut Comparer, sheet: &[u8]) {
    if let Some(table) = EDITION.table(sheet) {
        for (contents, bodies) in table_rooms(&mut comparer.random, &table) {
            comparer.sheet_read(sheet, contents, bodies);
        }
        let mut asked = Asked::new(&mut comparer.random, table);
        comparer.sheet_write(&mut asked, sheet.len());
    }
}

fn every_cut(comparer: &mut Comparer, table: &Table) {
    let sheet = sheets::careless(table);
    for kept in 0..sheet.len() {
        comparer.sheet_read(&sheet[..kept], table.contents.len(), table.bodies.len());
    }
}

/// Every number of the contents changed, each in its place.
fn every_number(comparer: &mut Comparer, table: &Table) {
    for place in 0..table.contents.len() {
        for (_, damaged) in sheets::other_numbers(table, place) {
            comparer.sheet_read(&damaged, table.contents.len(), table.bodies.len());
        }
    }
}

/// Damaged tables, most of which have no sheet.
fn write_damaged(comparer: &mut Comparer, table: &Table, fields: &[Field]) {
    let length = EDITION.length(table.rows() as usize, table.bodies.len());
    for _ in 0..times(length, 8) {
        let damaged = tables::any(&mut comparer.random, table, fields);
        let mut asked = Asked::new(&mut comparer.random, damaged);
        let room = if comparer.random.flag() { length + 40 } else { comparer.random.within(0, length) };
        comparer.sheet_write(&mut asked, room);
    }
}

/// Sheets of 65,536 bytes and more: with more rows and words than a count can say, of as many as a good table can have, and of noise.
fn long(comparer: &mut Comparer, table: &Table) {
    let times = comparer.random.within(1, 2);
    for (_, damaged) in sheets::wrapped(table, times) {
        comparer.sheet_read(&damaged, table.contents.len(), table.bodies.len());
    }
    let version = *comparer.random.pick(&Version::ALL[1..]);
    let many = if comparer.random.flag() { many_rows(version) } else { many_words(version) };
    in_rooms(comparer, &table::of(&many));
    let length = *comparer.random.pick(&[65_535, 65_536, 131_072, 1_048_600]);
    let byte = *comparer.random.pick(&[0, 1, 255]);
    comparer.sheet_read(&vec![byte; length], 8, 20);
    let groups = *comparer.random.pick(&[17, 9_000, 70_000]);
    for table in [tables::deep(groups), tables::far_too_long(table, groups as usize)] {
        comparer.sheet_read(&sheets::careless(&table), 40, 40);
        let mut asked = Asked::new(&mut comparer.random, table);
        comparer.sheet_write(&mut asked, 2_000_000);
    }
}
