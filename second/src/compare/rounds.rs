//! What one round asks: a drawing, its file and table, and many damaged ones.

use super::boxes;
use super::calls::{Asked, Comparer};
use super::{sessions, sheets};
use second::answer::Answer;
use second::damage::fields::{of_bodies, of_file, Field};
use second::damage::{files, tables};
use second::generate::coordinates::{paths, scattered};
use second::generate::special::{
    empty_groups, empty_to_depth, of_depth, padded, plain_drawing, sampler, with_chains, with_text_path,
};
use second::generate::{self, all_labels, chars};
use second::model::{Chars, Drawing};
use second::random::Random;
use second::table::{self, Table};
use second::version::{Version, LONGEST_FILE};
use second::{list, read, write};
use std::collections::BTreeSet;

/// What the calls of a round are made from. The drawing may be over a limit, or have what its version lacks; the file may spell true
/// otherwise than the writer does.
struct Round {
    drawing: Drawing,
    file: Vec<u8>,
    table: Table,
    file_fields: Vec<Field>,
    body_fields: Vec<Field>,
}

pub fn round(comparer: &mut Comparer, seed: u64) {
    comparer.random = Random::new(seed);
    comparer.report.seed = seed;
    let drawing = some_coordinates(&mut comparer.random);
    let mut round = Round {
        file: write::file(&drawing),
        table: table::of(&drawing),
        file_fields: of_file(&drawing),
        body_fields: of_bodies(&drawing),
        drawing,
    };
    count(comparer, &round);
    respell(comparer, &mut round);
    read_in_rooms(comparer, &round.file, &round.table);
    read_damaged(comparer, &round);
    ask_about(comparer, &round);
    ask_damaged(comparer, &round);
    sheets::round(comparer, &round.table, &round.body_fields);
    sessions::round(comparer, &round.file, &round.file_fields);
}

/// Counts the drawing by its version, if it has a text along a path, and by the depths at which it has empty groups.
fn count(comparer: &mut Comparer, round: &Round) {
    comparer.report.met(format!("1.{}", round.drawing.version.minor()));
    let rows: Vec<&[u32]> = round.table.contents.chunks(table::ROW).collect();
    if rows.iter().any(|row| row[0] == 5) {
        comparer.report.met("with X".to_string());
    }
    let mut depths = vec![0; rows.len()];
    let mut empty = BTreeSet::new();
    for (index, row) in rows.iter().enumerate() {
        depths[index] = if index == 0 { 1 } else { depths[row[1] as usize] + 1 };
        if row[0] == 1 && round.table.bodies[row[2] as usize] == 0 {
            empty.insert(depths[index]);
        }
    }
    for depth in empty {
        comparer.report.met(format!("empty group at depth {depth:02}"));
    }
}

/// In every other round the file has other bytes than 1 for true, if the drawing has a true flag.
fn respell(comparer: &mut Comparer, round: &mut Round) {
    if comparer.random.flag() {
        let file = files::respelled(&mut comparer.random, &round.file, &round.file_fields);
        if file != round.file {
            comparer.report.met("true flags other than 1".to_string());
        }
        round.file = file;
    }
}

/// Most drawings have coordinates that make boxes hard, and some have paths alone.
fn some_coordinates(random: &mut Random) -> Drawing {
    match random.below(10) {
        0 => some_drawing(random),
        1..=3 => {
            let version = *random.pick(&Version::ALL);
            paths(random.bits(), version, random.within(1, 8))
        }
        _ => {
            let drawing = some_drawing(random);
            scattered(random, drawing)
        }
    }
}

/// Makes a drawing from a seed, of about so many bytes.
type Make = fn(u64, Version, usize) -> Drawing;

/// Most drawings are small; some are at a limit or just over it, or have a text along a path in any version. Every other one may have
/// empty groups anywhere, and some have them at every depth, or nothing else.
fn some_drawing(random: &mut Random) -> Drawing {
    let seed = random.bits();
    let version = *random.pick(&Version::ALL);
    let make: Make = if random.flag() { generate::drawing } else { generate::with_empty_groups };
    match random.below(200) {
        0..=5 => sampler(seed, version),
        6..=12 => of_depth(version, random.within(14, 18) as u32, &chars("deep")),
        13..=22 if version.has_chains() => {
            let lengths = [(); 3].map(|()| random.within(0, 6));
            with_chains(seed, version, lengths)
        }
        23 => {
            let size = *random.pick(&[100, 20_000, 64_000]);
            padded(make(seed, version, size), random.within(65_532, 65_538))
        }
        24..=26 => make(seed, version, 15_000),
        27..=50 => make(seed, version, 2_000),
        51..=56 => with_text_path(seed, version, random.flag()),
        57..=64 => empty_to_depth(version, random.within(1, 18) as u32, &chars("deep")),
        65 => {
            let each = write::object_length(version, &empty_groups(1)[0]);
            plain_drawing(version, empty_groups(LONGEST_FILE / each - random.within(0, 5)))
        }
        _ => make(seed, version, random.within(1, 400)),
    }
}

/// How often to do what costs time in step with the size.
pub fn times(size: usize, small: usize) -> usize {
    (small * 400 / (400 + size)).max(1)
}

/// Rooms for contents and bodies: exact ones, one short, larger, none.
pub fn table_rooms(random: &mut Random, table: &Table) -> [(usize, usize); 9] {
    let (contents, bodies) = (table.contents.len(), table.bodies.len());
    let more = random.within(1, 9);
    let some = (random.within(0, contents), random.within(0, bodies));
    [
        (contents, bodies),
        (contents + more, bodies + more),
        (contents - 1, bodies),
        (contents, bodies - 1),
        (contents - 1, bodies - 1),
        (0, bodies),
        (contents, 0),
        (0, 0),
        some,
    ]
}

/// Rooms for so many bytes.
pub fn byte_rooms(random: &mut Random, length: usize) -> [usize; 5] {
    [length, length - 1, length + random.within(1, 40), 0, random.within(0, length)]
}

fn read_in_rooms(comparer: &mut Comparer, file: &[u8], table: &Table) {
    for (contents, bodies) in table_rooms(&mut comparer.random, table) {
        comparer.read(file, contents, bodies);
    }
}

fn read_damaged(comparer: &mut Comparer, round: &Round) {
    let (contents, bodies) = (round.table.contents.len(), round.table.bodies.len());
    for _ in 0..times(round.file.len(), 40) {
        let damaged = files::any(&mut comparer.random, &round.file, &round.file_fields);
        let answer = comparer.read(&damaged, contents + 40, bodies + 200);
        if answer.number == 0 && comparer.random.once_in(3) {
            accepted(comparer, &damaged);
        }
    }
    if round.file.len() < 500 && comparer.random.once_in(30) {
        every_cut(comparer, round);
        every_byte(comparer, round);
    }
    if comparer.random.once_in(300) {
        let long = files::too_long(&mut comparer.random, &round.file);
        comparer.read(&long, contents, bodies);
    }
}

/// A damaged file that is good all the same: its table is good too.
fn accepted(comparer: &mut Comparer, file: &[u8]) {
    if let Ok(drawing) = read::drawing(file) {
        let mut asked = Asked::new(&mut comparer.random, table::of(&drawing));
        comparer.check(&mut asked);
        comparer.write(&mut asked, file.len());
    }
}

fn every_cut(comparer: &mut Comparer, round: &Round) {
    for kept in 0..round.file.len() {
        comparer.read(&round.file[..kept], round.table.contents.len(), round.table.bodies.len());
    }
}

/// Each byte changed once, each in its place.
fn every_byte(comparer: &mut Comparer, round: &Round) {
    let (contents, bodies) = (round.table.contents.len() + 8, round.table.bodies.len() + 80);
    let mut file = round.file.clone();
    for place in 0..file.len() {
        let old = file[place];
        file[place] = match comparer.random.below(3) {
            0 => old.wrapping_add(1),
            1 => old.wrapping_sub(1),
            _ => old ^ 1 << comparer.random.below(8),
        };
        comparer.read(&file, contents, bodies);
        file[place] = old;
    }
}

/// All calls about the drawing's own table.
fn ask_about(comparer: &mut Comparer, round: &Round) {
    let mut asked = Asked::new(&mut comparer.random, round.table.clone());
    comparer.check(&mut asked);
    write_in_rooms(comparer, &mut asked, round.file.len());
    for _ in 0..times(round.file.len(), 6) {
        let label = some_label(&mut comparer.random, &round.drawing);
        list_in_rooms(comparer, &mut asked, &label);
    }
    let rows = round.table.rows();
    for _ in 0..times(round.file.len(), 12) {
        let row = some_row(&mut comparer.random, rows);
        questions(comparer, &mut asked, row);
    }
    boxes::ask(comparer, &mut asked);
}

fn write_in_rooms(comparer: &mut Comparer, asked: &mut Asked, length: usize) {
    for room in byte_rooms(&mut comparer.random, length) {
        comparer.write(asked, room);
    }
}

/// The label with a large room; then exactly, and one short.
fn list_in_rooms(comparer: &mut Comparer, asked: &mut Asked, label: &[u16]) {
    let room = asked.table.rows() as usize + comparer.random.within(0, 5);
    let Answer { number, rows, .. } = comparer.list(asked, label, room);
    if number == 0 {
        let count = rows as usize;
        comparer.list(asked, label, count);
        comparer.list(asked, label, count.saturating_sub(1));
        comparer.list(asked, label, 0);
    }
}

/// A description of the drawing, one char more or less or other than it, or some other label.
fn some_label(random: &mut Random, drawing: &Drawing) -> Chars {
    let objects = list::opened(drawing);
    let mut label = random.pick(&objects).description.to_vec();
    match random.below(8) {
        0 => label.push(random.word() as u16),
        1 => {
            label.pop();
        }
        2 if !label.is_empty() => {
            let place = random.below(label.len());
            label[place] ^= 1 << random.below(16);
        }
        3 => label = random.pick(&all_labels()).clone(),
        4 => label.extend_from_within(..),
        5 if random.once_in(50) => label.resize(70_000, 0x6D),
        _ => {}
    }
    label
}

/// A row of the table, or one past its end.
fn some_row(random: &mut Random, rows: u32) -> u32 {
    match random.below(12) {
        0 => rows,
        1 => *random.pick(&[rows.wrapping_add(1), u32::MAX, 0x4000_0000, 0x8000_0000]),
        _ => random.below(rows.max(1) as usize) as u32,
    }
}

fn questions(comparer: &mut Comparer, asked: &mut Asked, row: u32) {
    for which in [0, 1, 2] {
        comparer.paint(asked, row, which);
    }
    if comparer.random.once_in(4) {
        let which = *comparer.random.pick(&[3, 4, 255, 256, u32::MAX]);
        comparer.paint(asked, row, which);
    }
    comparer.text(asked, row);
    comparer.description(asked, row);
}

/// Damaged tables; now and then some other call than the check as well.
fn ask_damaged(comparer: &mut Comparer, round: &Round) {
    for _ in 0..times(round.file.len(), 24) {
        let damaged = tables::any(&mut comparer.random, &round.table, &round.body_fields);
        let rows = damaged.rows();
        let mut asked = Asked::new(&mut comparer.random, damaged);
        comparer.check(&mut asked);
        let room = comparer.random.within(0, round.file.len() + 40);
        match comparer.random.below(7) {
            0 => {
                comparer.write(&mut asked, round.file.len() + 40);
            }
            1 => {
                comparer.write(&mut asked, room);
            }
            2 => {
                let label = some_label(&mut comparer.random, &round.drawing);
                comparer.list(&mut asked, &label, rows as usize);
            }
            3 => {
                let row = some_row(&mut comparer.random, rows);
                let which = comparer.random.below(3) as u32;
                comparer.paint(&mut asked, row, which);
            }
            4 => {
                let row = some_row(&mut comparer.random, rows);
                comparer.text(&mut asked, row);
            }
            5 => {
                let row = some_row(&mut comparer.random, rows);
                comparer.description(&mut asked, row);
            }
            _ => {}
        }
        boxes::ask_damaged(comparer, &mut asked);
    }
    if comparer.random.once_in(300) {
        let groups = *comparer.random.pick(&[1, 15, 16, 17, 18, 200, 9_000, 30_000]);
        ask_all(comparer, tables::deep(groups));
        ask_all(comparer, tables::far_too_long(&round.table, groups as usize));
    }
}

/// Each call once about a table that is out of the ordinary.
fn ask_all(comparer: &mut Comparer, table: Table) {
    let mut asked = Asked::new(&mut comparer.random, table);
    comparer.check(&mut asked);
    comparer.write(&mut asked, 66_000);
    comparer.list(&mut asked, &[], 10);
    questions(comparer, &mut asked, 1);
    boxes::ask_damaged(comparer, &mut asked);
}
