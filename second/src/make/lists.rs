//! Cases of the list call, the paint question and the text question.

use super::{hash, table_data, Case, FILL};
use crate::answer::Answer;
use crate::ask;
use crate::check::{self, Good};
use crate::generate::special::{
    self, empty_to_depth, of_depth, padded, plain_bitmap, plain_drawing, sampler, with_text_path,
};
use crate::generate::{self, all_labels, chars, Maker};
use crate::list;
use crate::model::{Chars, Drawing, Gradient, Object, Paint, Plain, TextPath};
use crate::table::{self, Table};
use crate::version::Version;

/// A table, a label, and what it is.
struct Asked {
    name: String,
    table: Table,
    label: Chars,
}

type All = Vec<Asked>;
type Change = fn(&mut Table);

pub fn cases(seed: u64) -> Vec<Case> {
    let mut all = All::new();
    labels(&mut all, seed);
    depths(&mut all);
    paints(&mut all, seed);
    negative_zeros(&mut all, seed);
    text_paths(&mut all, seed);
    empty_groups(&mut all);
    many_entries(&mut all);
    refused(&mut all, seed);
    all.into_iter().map(case).collect()
}

fn case(asked: Asked) -> Case {
    let Asked { name, table, label } = asked;
    let data = table_data(&table, label.iter().copied().map(u32::from));
    Case { name, data, groups: groups(&table, &label) }
}

/// The line's groups: the list with three rooms, then the questions row by row.
fn groups(table: &Table, label: &[u16]) -> Vec<String> {
    let good = check::good(&table.contents, &table.bodies);
    let good = good.as_ref();
    let (answer, group) = listed(good, label, 9_400);
    let mut groups = vec![group];
    if answer.number == 0 {
        let count = answer.rows as usize;
        groups.push(listed(good, label, count).1);
        if count > 0 {
            groups.push(listed(good, label, count - 1).1);
        }
    }
    let last = if good.is_some() { table.rows().min(40) } else { 1 };
    groups.extend((0..=last).map(|row| questions(good, row)));
    groups
}

/// One list call with room for so many entries.
fn listed(good: Option<&Good>, label: &[u16], room: usize) -> (Answer, String) {
    let mut entries = vec![FILL; room];
    let answer = list::call(good, label, &mut entries);
    let Answer { number, offset, rows, words } = answer;
    (answer, format!("{number} {offset} {rows} {words} {:08x}", hash(entries)))
}

/// The four paint answers and the text answer of a row.
fn questions(good: Option<&Good>, row: u32) -> String {
    let paints = [0, 1, 2, 3].map(|which| ask::paint(good, row, which));
    let text = ask::text(good, row);
    let hash = hash(paints.iter().flat_map(|paint| paint.words()).chain(text.words()));
    let [line, fill, of_text, other] = paints.map(|paint| paint.number);
    format!("{row}: {line} {fill} {of_text} {other} {} {hash:08x}", text.number)
}

fn add(all: &mut All, name: &str, drawing: &Drawing, label: &[u16]) {
    let name = format!("1.{}: {name}", drawing.version.minor());
    all.push(Asked { name, table: table::of(drawing), label: label.to_vec() });
}

/// Labels that are there once, often or never, prefixes of one another, with unusual chars.
fn labels(all: &mut All, seed: u64) {
    let never = chars("a fairly long label of a machine that no object has");
    for version in Version::ALL {
        let mut drawing = generate::drawing(seed, version, 4_000);
        if version.has_descriptions() {
            describe_all(&mut drawing.outer.objects, &mut 0);
        }
        for label in all_labels().iter().chain([&never]) {
            // Below 1.2 one char is as good as another.
            if version.has_descriptions() || label.len() <= 1 {
                let name = String::from_utf16_lossy(label);
                add(all, &format!("label `{}`", name.escape_debug()), &drawing, label);
            }
        }
    }
}

/// The objects take all labels in turn, and then the first ones again and again.
pub fn describe_all(objects: &mut [Object], opened: &mut usize) {
    let labels = all_labels();
    for object in objects {
        let label = if *opened < labels.len() { *opened } else { *opened % 5 };
        *object.description_mut() = labels[label].clone();
        *opened += 1;
        if let Object::Group(group) = object {
            describe_all(&mut group.objects, opened);
        }
    }
}

/// One label at every depth, and at some only.
fn depths(all: &mut All) {
    let [v0, v1, described @ ..] = Version::ALL;
    let label = chars("deep");
    for version in described {
        let drawing = of_depth(version, 16, &label);
        add(all, "one label at every depth", &drawing, &label);
        let mut some = drawing.clone();
        let mut inner = &mut some.outer;
        for depth in 1..16 {
            if depth % 3 == 0 {
                inner.description = Chars::new();
            }
            match inner.objects.first_mut() {
                Some(Object::Group(next)) => inner = next,
                _ => break,
            }
        }
        add(all, "one label at some depths", &some, &label);
        add(all, "the empty label at some depths", &some, &[]);
    }
    for version in [v0, v1] {
        add(all, "the empty label below 1.2", &of_depth(version, 16, &label), &[]);
        add(all, "another label below 1.2", &of_depth(version, 16, &label), &label);
    }
}

/// All paints and texts of every version.
fn paints(all: &mut All, seed: u64) {
    for version in Version::ALL {
        for more in [3, 4] {
            let drawing = sampler(seed + more, version);
            let label = drawing.outer.description.clone();
            add(all, "every kind of part", &drawing, &label);
        }
    }
}

/// Components of -0 in every plain paint and in gradients of them.
fn negative_zeros(all: &mut All, seed: u64) {
    let zero = 0x8000_0000;
    for version in Version::ALL {
        let mut maker = Maker::new(seed, version);
        let mut objects = Vec::new();
        for letter in version.plain_letters() {
            let plain = match letter {
                b'R' => Plain::Rgb([zero; 4]),
                b'C' => Plain::Cmyk([zero; 5]),
                b'Y' => Plain::Grey([zero; 2]),
                b'S' => Plain::Hsb([zero; 4]),
                _ => Plain::Transparent,
            };
            let mut path = maker.path();
            path.line = Paint::Plain(plain.clone());
            path.fill =
                Paint::Linear(Gradient { first: Plain::Transparent, second: plain.clone(), place: 0 });
            objects.push(Object::Path(path));
            let mut text = maker.text();
            text.paint = Paint::Linear(Gradient { first: plain.clone(), second: plain, place: 7 });
            if version.has_text_paths() {
                objects.push(Object::TextPath(TextPath { text: text.clone(), ..maker.text_path() }));
            }
            objects.push(Object::Text(text));
        }
        add(all, "components of -0", &plain_drawing(version, objects), &[]);
    }
}

/// A text along a path with its own label, and below 1.5, where no table has one.
fn text_paths(all: &mut All, seed: u64) {
    let [.., v4, v5] = Version::ALL;
    let label = chars("along");
    for (version, latex) in [(v5, false), (v5, true), (v4, true)] {
        let mut drawing = with_text_path(seed, version, latex);
        *drawing.outer.objects[0].description_mut() = label.clone();
        add(all, "a text along a path", &drawing, &label);
    }
}

/// Empty groups by their label and by others: the outer one alone, at every depth, and with all labels in turn; and a broken table.
fn empty_groups(all: &mut All) {
    let label = chars("bay");
    for version in Version::ALL {
        for (name, depth) in [("an empty outer group", 1), ("empty groups to depth 16", 16)] {
            let drawing = empty_to_depth(version, depth, &label);
            add(all, &format!("{name}, by its label"), &drawing, &label);
            add(all, &format!("{name}, by the empty label"), &drawing, &[]);
        }
        let mut drawing = empty_to_depth(version, 5, &label);
        if version.has_descriptions() {
            describe_all(&mut drawing.outer.objects, &mut 0);
            add(all, "empty groups with labels in turn", &drawing, &chars("m"));
        }
        // The first group that ends is an empty one, and the head has two words.
        let mut table = table::of(&drawing);
        table.bodies[2] = 1;
        let name = format!("1.{}: an empty group holds 1", version.minor());
        all.push(Asked { name, table, label: Chars::new() });
    }
}

/// Rows by the hundred, all of them entries; the most rows there can be; and a drawing at the limit.
fn many_entries(all: &mut All) {
    let [v0, _, v2, ..] = Version::ALL;
    for (version, count) in [(v0, 300), (v2, 45)] {
        let objects = (0..count).map(|_| Object::Bitmap(plain_bitmap(1))).collect();
        add(all, &format!("{count} bitmaps"), &plain_drawing(version, objects), &[]);
    }
    add(all, "9,359 groups", &plain_drawing(v0, special::empty_groups(9_358)), &[]);
    let drawing = padded(plain_drawing(v2, vec![Object::Bitmap(plain_bitmap(1))]), 65_535);
    add(all, "a file of 65,535 bytes", &drawing, &[]);
}

/// Tables that no acceptable file gives.
fn refused(all: &mut All, seed: u64) {
    all.push(Asked { name: "no table at all".into(), table: Table::default(), label: Chars::new() });
    for version in Version::ALL {
        let table = table::of(&generate::drawing(seed + 9, version, 400));
        let changes: [(&str, Change); 5] = [
            ("a word less", |table| table.bodies.truncate(table.bodies.len() - 1)),
            ("a row more", |table| table.contents.extend([4, 0, 0, 0])),
            ("parent of the last row wrong", |table| *table.contents.iter_mut().rev().nth(2).unwrap() += 1),
            ("outer start wrong", |table| table.contents[2] -= 1),
            ("last word wrong", |table| *table.bodies.last_mut().unwrap() ^= 0x1_0000),
        ];
        for (name, change) in changes {
            let mut table = table.clone();
            change(&mut table);
            let name = format!("1.{}: {name}", version.minor());
            all.push(Asked { name, table, label: Chars::new() });
        }
    }
}
