//! Cases of the sheet_write and sheet_read calls.

use super::reads::groups;
use super::tables::{plan_a, writer_groups};
use super::{table_data, Case};
use crate::check;
use crate::damage::fields::{of_bodies, Field};
use crate::damage::sheets::{careless, every, other_numbers, wrong_words, Named};
use crate::damage::tables::put;
use crate::damage::{files, sheets};
use crate::generate::sheets::{many_rows, many_words};
use crate::generate::special::{
    of_depth, padded, plain_bitmap, plain_drawing, sampler, with_chains, with_text_path,
};
use crate::generate::{self, chars};
use crate::model::{Drawing, Object};
use crate::plans;
use crate::random::Random;
use crate::read;
use crate::sheet;
use crate::table::{self, Table, ROW};
use crate::version::{Version, LONGEST_FILE};

type Tables = Vec<(String, Table)>;
type Change = fn(&mut Table);

/// More bytes than any sheet has: a file has at most 65,535 bytes, and for each row at least 7, for each word at least 1.
const LARGE: usize = 340_000;

pub fn write_cases(seed: u64) -> Vec<Case> {
    let mut tables = drawn(seed);
    for version in Version::ALL {
        changed(&mut tables, version, seed);
    }
    tables.push(("empty contents and bodies".into(), Table::default()));
    tables.into_iter().map(write_case).collect()
}

fn write_case((name, table): (String, Table)) -> Case {
    let good = check::good(&table.contents, &table.bodies);
    let groups = writer_groups(sheet::write_call, good.as_ref(), LARGE);
    Case { name, data: table_data(&table, []), groups }
}

pub fn read_cases(seed: u64) -> Vec<Case> {
    let mut all: Named = drawn(seed).into_iter().map(|(name, table)| (name, careless(&table))).collect();
    damaged_plan_a(&mut all);
    for version in Version::ALL {
        damaged(&mut all, version, seed);
    }
    no_sheets(&mut all, seed);
    all.into_iter().map(|(name, data)| Case { name, groups: groups(sheet::read_call, &data), data }).collect()
}

fn add(tables: &mut Tables, name: &str, drawing: &Drawing) {
    tables.push((format!("1.{}: {name}", drawing.version.minor()), table::of(drawing)));
}

/// The tables of drawings, good ones and ones that are over a limit or have what their version lacks.
fn drawn(seed: u64) -> Tables {
    let [v0, v1, v2, _, v4, v5] = Version::ALL;
    let mut tables = vec![("plan A".into(), plan_a())];
    for version in Version::ALL {
        add(&mut tables, "every kind of part", &sampler(seed, version));
        add(&mut tables, "some drawing", &generate::drawing(seed + 2, version, 700));
    }
    for (version, depth) in [(v0, 16), (v0, 17), (v5, 16), (v5, 17)] {
        add(&mut tables, &format!("depth {depth}"), &of_depth(version, depth, &chars("deep")));
    }
    for (version, lengths) in [(v1, [4, 4, 4]), (v1, [0, 5, 0]), (v4, [4, 4, 4]), (v4, [5, 0, 0])] {
        let drawing = with_chains(seed, version, lengths);
        add(&mut tables, &format!("chains of {lengths:?} markers"), &drawing);
    }
    for version in [v4, v5] {
        add(&mut tables, "a text along a path", &with_text_path(seed, version, true));
    }
    for length in [LONGEST_FILE, LONGEST_FILE + 1] {
        let drawing = padded(plain_drawing(v2, vec![Object::Bitmap(plain_bitmap(1))]), length);
        add(&mut tables, &format!("its file has {length} bytes"), &drawing);
    }
    add(&mut tables, "rows by the thousand", &many_rows(v0));
    add(&mut tables, "more than 32,767 words", &many_words(v1));
    tables
}

/// Tables that have no sheet. Of some the lowest bytes of their numbers would be a good one.
fn changed(tables: &mut Tables, version: Version, seed: u64) {
    let table = table::of(&generate::drawing(seed + 3, version, 400));
    let changes: [(&str, Change); 10] = [
        ("a word fewer", |table| table.bodies.truncate(table.bodies.len() - 1)),
        ("a word more", |table| table.bodies.push(0)),
        ("a row fewer", |table| table.contents.truncate(table.contents.len() - ROW)),
        ("a row more", |table| table.contents.extend([4, 0, 0, 0])),
        ("a part of a row more", |table| table.contents.push(0)),
        ("the outer kind and 65,536", |table| table.contents[0] += 0x1_0000),
        ("the last parent and 65,536", |table| *of_last_row(table, 1) += 0x1_0000),
        ("the outer start and 65,536", |table| table.contents[2] += 0x1_0000),
        ("the last length one off", |table| *of_last_row(table, 3) += 1),
        ("the last word too wide", |table| *table.bodies.last_mut().unwrap() ^= 0x1_0000),
    ];
    for (name, change) in changes {
        let mut table = table.clone();
        change(&mut table);
        tables.push((format!("1.{}: {name}", version.minor()), table));
    }
}

/// A word of the last row.
fn of_last_row(table: &mut Table, word: usize) -> &mut u32 {
    let place = table.contents.len() - ROW + word;
    &mut table.contents[place]
}

/// Plan A's sheet with everything in turn that can be wrong with it.
fn damaged_plan_a(all: &mut Named) {
    let table = plan_a();
    let numbers = (0..table.contents.len()).flat_map(|place| other_numbers(&table, place));
    let fields = read::drawing(&plans::plan_a()).map_or(Vec::new(), |drawing| of_bodies(&drawing));
    let words = fields.iter().flat_map(|field| wrong_words(&table, field));
    let damaged = every(&table).into_iter().chain(numbers).chain(words);
    all.extend(damaged.map(|(name, sheet)| (format!("plan A: {name}"), sheet)));
}

/// The sheet of a larger drawing with some damage of each kind.
fn damaged(all: &mut Named, version: Version, seed: u64) {
    let drawing = generate::drawing(seed + 4, version, 900);
    let (table, fields) = (table::of(&drawing), of_bodies(&drawing));
    let mut random = Random::new(seed + 4 + u64::from(version.minor()));
    let mut picked = Named::new();
    let mut whole = every(&table);
    for _ in 0..6 {
        picked.push(whole.swap_remove(random.below(whole.len())));
    }
    for word in 0..ROW {
        let row = random.below(table.rows() as usize);
        picked.push(one_of(&mut random, other_numbers(&table, row * ROW + word)));
    }
    for sort in sorts(&fields) {
        let such: Vec<&Field> = fields.iter().filter(|field| field.kind.name() == sort).collect();
        let field = *random.pick(&such);
        let wrong = wrong_words(&table, field);
        if wrong.is_empty() {
            picked.push((format!("another {sort} at word {}", field.place), with_other_bits(&table, field)));
        } else {
            picked.push(one_of(&mut random, wrong));
        }
    }
    all.extend(picked.into_iter().map(|(name, sheet)| (format!("1.{}: {name}", version.minor()), sheet)));
}

fn one_of(random: &mut Random, mut all: Named) -> (String, Vec<u8>) {
    all.swap_remove(random.below(all.len()))
}

/// Each kind of field once, by its name.
fn sorts(fields: &[Field]) -> Vec<&'static str> {
    let mut sorts = Vec::new();
    for name in fields.iter().map(|field| field.kind.name()) {
        if !sorts.contains(&name) {
            sorts.push(name);
        }
    }
    sorts
}

/// A free field with another value: again a sheet, but for a double that another has to join.
fn with_other_bits(table: &Table, field: &Field) -> Vec<u8> {
    let mut table = table.clone();
    put(&mut table.bodies, field, field.value ^ 1);
    careless(&table)
}

/// Bytes that are nothing like a sheet, or as long as no file may be.
fn no_sheets(all: &mut Named, seed: u64) {
    let mut random = Random::new(seed + 5);
    all.push(("plan A's file".into(), plans::plan_a()));
    for length in [4, 100] {
        all.push((format!("{length} zeros"), vec![0; length]));
        all.push((format!("{length} bytes of 255"), vec![255; length]));
        all.push((format!("{length} random bytes"), files::random_bytes(&mut random, length)));
    }
    let sheet = careless(&plan_a());
    let mut filled = sheet.clone();
    filled.resize(LONGEST_FILE + 1, 0);
    all.push(("65,536 bytes, plan A's sheet and zeros".into(), filled));
    // As long as the counts say, so that the rows are looked at.
    let (rows, words) = (9_000, 1_000);
    let mut long = vec![0; sheet::EDITION.length(rows, words)];
    long = sheets::put(&sheets::put(&long, 0, rows as u32), 1, words as u32);
    all.push((format!("{} bytes, {rows} rows and {words} words of zeros", long.len()), long));
}
