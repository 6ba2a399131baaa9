//! Damage to tables.

use super::faults::word_faults;
use super::fields::{words, Field};
use crate::random::Random;
use crate::table::{Table, ROW};
use crate::version::Version;

/// Words that are near an end of some range, or no value of a narrow field.
const WORDS: [u32; 13] = [0, 1, 2, 3, 4, 5, 6, 255, 256, 65_535, 65_536, 0x8000_0000, 0xFFFF_FFFF];

/// A damage, done in place; the fields are those of the good table's bodies.
type Damage = fn(&mut Random, &mut Table, &[Field]);

const DAMAGES: [Damage; 18] = [
    contents_word,
    contents_word,
    bodies_word,
    bodies_word,
    faulty_field,
    faulty_field,
    faulty_field,
    too_wide_field,
    other_version,
    other_kind,
    other_row_count,
    other_word_count,
    word_moved,
    rows_exchanged,
    bodies_exchanged,
    broken_row,
    emptied,
    noise,
];

/// A table damaged in one way or another.
pub fn any(random: &mut Random, table: &Table, fields: &[Field]) -> Table {
    let mut table = table.clone();
    let damage = *random.pick(&DAMAGES);
    damage(random, &mut table, fields);
    if random.once_in(10) {
        bodies_word(random, &mut table, fields);
    }
    table
}

/// A word near the old one, near an end of a range, or random.
fn other_word(random: &mut Random, old: u32) -> u32 {
    match random.below(6) {
        0 => old.wrapping_add(1),
        1 => old.wrapping_sub(1),
        2 => old | 0x100,
        3 => old | 0x1_0000,
        4 => *random.pick(&WORDS),
        _ => random.word(),
    }
}

fn change(random: &mut Random, run: &mut [u32]) {
    if !run.is_empty() {
        let place = random.below(run.len());
        run[place] = other_word(random, run[place]);
    }
}

/// A wrong kind, parent, start or length.
fn contents_word(random: &mut Random, table: &mut Table, _fields: &[Field]) {
    change(random, &mut table.contents);
}

fn bodies_word(random: &mut Random, table: &mut Table, _fields: &[Field]) {
    change(random, &mut table.bodies);
}

/// The value in the words of one field.
pub fn put(bodies: &mut [u32], field: &Field, value: u64) {
    if words(field.kind) == 2 {
        bodies[field.place] = (value >> 32) as u32;
        bodies[field.place + 1] = value as u32;
    } else {
        bodies[field.place] = value as u32;
    }
}

fn faulty_field(random: &mut Random, table: &mut Table, fields: &[Field]) {
    // Many fields are free chars, so look some times.
    for _ in 0..20 {
        let field = random.pick(fields);
        let faults = word_faults(field.kind, field.value);
        if !faults.is_empty() {
            return put(&mut table.bodies, field, *random.pick(&faults));
        }
    }
}

/// A flag of 2, a byte of 256, a char of 65,536: the low bits are those of a good value.
fn too_wide_field(random: &mut Random, table: &mut Table, fields: &[Field]) {
    let field = random.pick(fields);
    if field.kind.width() <= 2 {
        let bit = 8 * field.kind.width() as u32;
        table.bodies[field.place] |= 1 << random.within(bit as usize, 31);
    }
}

/// The words of one version as another's, or as none's.
fn other_version(random: &mut Random, table: &mut Table, _fields: &[Field]) {
    table.bodies[0] = random.within(0, Version::ALL.len()) as u32;
}

/// A row of another kind, or of none.
fn other_kind(random: &mut Random, table: &mut Table, _fields: &[Field]) {
    let row = random.below(table.rows() as usize);
    table.contents[row * ROW] = random.within(0, 6) as u32;
}

/// A row too many or too few, or a row that is not whole.
fn other_row_count(random: &mut Random, table: &mut Table, _fields: &[Field]) {
    let length = table.contents.len();
    match random.below(4) {
        0 => table.contents.truncate(length - ROW),
        1 => table.contents.truncate(length - random.within(1, ROW - 1)),
        2 => table.contents.extend_from_within(length - ROW..),
        _ => table.contents.resize(length + random.within(1, 2 * ROW), 0),
    }
}

/// Some words too many or too few at the end.
fn other_word_count(random: &mut Random, table: &mut Table, _fields: &[Field]) {
    let length = table.bodies.len();
    if random.flag() {
        table.bodies.truncate(length - random.within(1, length.min(3)));
    } else {
        table.bodies.resize(length + random.within(1, 3), 0);
    }
}

/// A word of the bodies taken out and put in elsewhere, or only one of both.
fn word_moved(random: &mut Random, table: &mut Table, _fields: &[Field]) {
    let from = random.below(table.bodies.len());
    let word = table.bodies[from];
    if !random.once_in(3) {
        table.bodies.remove(from);
    }
    if !random.once_in(3) {
        let to = random.within(0, table.bodies.len());
        table.bodies.insert(to, word);
    }
}

/// Two rows in each other's place.
fn rows_exchanged(random: &mut Random, table: &mut Table, _fields: &[Field]) {
    let rows = table.rows() as usize;
    let (one, other) = (random.below(rows), random.below(rows));
    for word in 0..ROW {
        table.contents.swap(one * ROW + word, other * ROW + word);
    }
}

/// Two bodies of the same length in each other's place, together with their starts.
fn bodies_exchanged(random: &mut Random, table: &mut Table, _fields: &[Field]) {
    let rows = table.rows() as usize;
    let one = random.below(rows);
    let same =
        (0..rows).filter(|row| *row != one).find(|row| length_of(table, *row) == length_of(table, one));
    if let Some(other) = same {
        exchange_bodies(table, one, other);
    }
}

fn length_of(table: &Table, row: usize) -> u32 {
    table.contents[row * ROW + 3]
}

/// Exchanges the bodies of two rows, which have the same length, and their starts.
pub fn exchange_bodies(table: &mut Table, one: usize, other: usize) {
    let length = length_of(table, one) as usize;
    let start_one = table.contents[one * ROW + 2] as usize;
    let start_other = table.contents[other * ROW + 2] as usize;
    for word in 0..length {
        table.bodies.swap(start_one + word, start_other + word);
    }
    table.contents.swap(one * ROW + 2, other * ROW + 2);
}

/// A row whose start and length go past the end, or whose sum would wrap.
fn broken_row(random: &mut Random, table: &mut Table, _fields: &[Field]) {
    let row = random.below(table.rows() as usize);
    table.contents[row * ROW + 2] = *random.pick(&[u32::MAX, u32::MAX - 1, table.words(), 0]);
    table.contents[row * ROW + 3] = *random.pick(&[u32::MAX, 2, 1, 0, table.words()]);
}

/// No contents, no bodies, or none of both.
fn emptied(random: &mut Random, table: &mut Table, _fields: &[Field]) {
    let which = random.below(3);
    if which != 0 {
        table.contents.clear();
    }
    if which != 1 {
        table.bodies.clear();
    }
}

/// Random words throughout, most of them small.
fn noise(random: &mut Random, table: &mut Table, _fields: &[Field]) {
    for run in [&mut table.contents, &mut table.bodies] {
        let length = random.within(0, 40);
        *run =
            (0..length).map(|_| if random.flag() { random.below(5) as u32 } else { random.word() }).collect();
    }
}

/// A bitmap inside so many groups, each inside the other: good only if they are not too many.
pub fn deep(groups: u32) -> Table {
    let head = [2, 0];
    // Name `a`, flag, six doubles, flow flag, description.
    let mut bitmap = [0; 17];
    bitmap[..2].copy_from_slice(&[1, 0x61]);
    let mut table = Table { contents: Vec::new(), bodies: [&head[..], &bitmap].concat() };
    let first = table.words();
    for row in 0..groups {
        // Each group's body is n, flow flag and an empty description; the innermost ends first.
        table.contents.extend([1, row.saturating_sub(1), first + 3 * (groups - 1 - row), 3]);
        table.bodies.extend([1, 0, 0]);
    }
    table.contents.extend([4, groups - 1, head.len() as u32, bitmap.len() as u32]);
    table
}

/// The table and many more rows and words, copies of its last ones.
pub fn far_too_long(table: &Table, more: usize) -> Table {
    let mut table = table.clone();
    for _ in 0..more {
        let length = table.contents.len();
        table.contents.extend_from_within(length - ROW..);
        table.bodies.push(0);
    }
    table
}
