//! Cases of the description question.

use super::lists::describe_all;
use super::{table_data, Case};
use crate::answer::DescriptionAnswer;
use crate::ask;
use crate::check;
use crate::generate::special::{
    empty_to_depth, of_depth, padded, plain_bitmap, plain_drawing, sampler, with_text_path,
};
use crate::generate::{self, chars};
use crate::model::{Drawing, Object};
use crate::table::{self, Table};
use crate::version::Version;

/// A table, the rows that are asked about, and what it is.
struct Asked {
    name: String,
    table: Table,
    rows: Vec<u32>,
}

type All = Vec<Asked>;
type Change = fn(&mut Table);

pub fn cases(seed: u64) -> Vec<Case> {
    let mut all = All::new();
    for version in Version::ALL {
        drawings(&mut all, version, seed);
        tails(&mut all, version);
        refused(&mut all, version, seed);
    }
    all.push(Asked { name: "no table at all".into(), table: Table::default(), rows: vec![0, 1, u32::MAX] });
    all.into_iter().map(case).collect()
}

/// The line's groups: for each row the number, the start and the length.
fn case(asked: Asked) -> Case {
    let Asked { name, table, rows } = asked;
    let good = check::good(&table.contents, &table.bodies);
    let group = |row: &u32| {
        let DescriptionAnswer { number, start, length } = ask::description(good.as_ref(), *row);
        format!("{row}: {number} {start} {length}")
    };
    let groups = rows.iter().map(group).collect();
    Case { name, data: table_data(&table, rows), groups }
}

/// All rows, then rows past the end: the first and the second; two whose place in the contents would wrap to that of row 1; the last number.
fn add(all: &mut All, name: &str, drawing: &Drawing) {
    let table = table::of(drawing);
    let past = [table.rows(), table.rows() + 1, 0x4000_0001, 0xC000_0001, u32::MAX];
    let rows = (0..table.rows()).chain(past).collect();
    all.push(Asked { name: format!("1.{}: {name}", drawing.version.minor()), table, rows });
}

/// Every kind of object, groups at every depth, empty ones too, with all labels in turn; and a description that fills its file.
fn drawings(all: &mut All, version: Version, seed: u64) {
    add(all, "every kind of part", &sampler(seed, version));
    add(all, "one label at every depth", &of_depth(version, 16, &chars("deep")));
    add(all, "empty groups to depth 16", &empty_to_depth(version, 16, &chars("bay")));
    for more in [1, 2] {
        let mut drawing = generate::with_empty_groups(seed + more, version, 900);
        add(all, "some drawing", &drawing);
        if version.has_descriptions() {
            describe_all(&mut drawing.outer.objects, &mut 0);
            add(all, "labels in turn", &drawing);
        }
    }
    if version.has_text_paths() {
        add(all, "a text along a path", &with_text_path(seed, version, true));
    }
    if version == Version::ALL[2] {
        let drawing = padded(plain_drawing(version, vec![Object::Bitmap(plain_bitmap(1))]), 65_535);
        add(all, "a file of 65,535 bytes", &drawing);
    }
}

/// Descriptions whose last chars look like a length and the chars behind it: only a walk tells where the description begins.
fn tails(all: &mut All, version: Version) {
    if !version.has_descriptions() {
        return;
    }
    let tails: [&[u16]; 6] = [&[0], &[0, 0], &[1, 7], &[0, 1, 7], &[2, 1, 7], &[3, 2, 1, 0]];
    let described = |label: &&[u16]| {
        let mut object = Object::Bitmap(plain_bitmap(1));
        *object.description_mut() = label.to_vec();
        object
    };
    add(all, "chars that look like a length", &plain_drawing(version, tails.iter().map(described).collect()));
}

/// Tables that no acceptable file gives.
fn refused(all: &mut All, version: Version, seed: u64) {
    let table = table::of(&generate::drawing(seed + 9, version, 400));
    let changes: [(&str, Change); 6] = [
        ("a word less", |table| table.bodies.truncate(table.bodies.len() - 1)),
        ("a word more", |table| table.bodies.push(0)),
        ("a row more", |table| table.contents.extend([4, 0, 0, 0])),
        ("length of the last row wrong", |table| *table.contents.last_mut().unwrap() += 1),
        ("outer start wrong", |table| table.contents[2] -= 1),
        ("last word wrong", |table| *table.bodies.last_mut().unwrap() ^= 0x1_0000),
    ];
    for (name, change) in changes {
        let mut table = table.clone();
        change(&mut table);
        let rows = (0..table.rows().min(3)).chain([table.rows(), u32::MAX]).collect();
        all.push(Asked { name: format!("1.{}: {name}", version.minor()), table, rows });
    }
}
