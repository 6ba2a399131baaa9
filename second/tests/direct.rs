//! The direct calls give the plain answers and leave lent memory as the plain ones do, on good, damaged and extreme inputs.

use second::damage::fields::{of_bodies, of_file};
use second::damage::{files, tables};
use second::generate::special::{
    empty_groups, empty_to_depth, of_depth, padded, plain_bitmap, plain_drawing, sampler, with_chains,
    with_text_path,
};
use second::generate::{self, all_labels, chars};
use second::model::{Bitmap, Drawing, Group, Object};
use second::random::Random;
use second::table::{self, Table};
use second::version::Version;
use second::{check, direct, list, write};

const FILL: u32 = 0xA5A5_A5A5;

fn read_alike(file: &[u8], contents_room: usize, bodies_room: usize) {
    let (mut contents, mut bodies) = (vec![FILL; contents_room], vec![FILL; bodies_room]);
    let (mut direct_contents, mut direct_bodies) = (contents.clone(), bodies.clone());
    let plain = table::read_call(file, &mut contents, &mut bodies);
    let direct = direct::read(file, &mut direct_contents, &mut direct_bodies);
    assert_eq!(plain, direct, "{file:02x?}");
    assert!(contents == direct_contents && bodies == direct_bodies, "{file:02x?}");
}

fn table_alike(table: &Table, room: usize) {
    let good = check::good(&table.contents, &table.bodies);
    assert_eq!(check::call(good.as_ref()), direct::check(&table.contents, &table.bodies), "{table:?}");
    let mut file = vec![FILL as u8; room];
    let mut direct_file = file.clone();
    let plain = write::call(good.as_ref(), &mut file);
    assert_eq!(plain, direct::write(&table.contents, &table.bodies, &mut direct_file), "{table:?}");
    assert!(file == direct_file, "{table:?}");
}

/// Every room around the one that is needed, and some more.
fn list_alike(table: &Table, label: &[u16]) {
    let Table { contents, bodies } = table;
    let good = check::good(contents, bodies);
    let needed = list::call(good.as_ref(), label, &mut []).offset as usize;
    for room in [0, needed.saturating_sub(1), needed, needed + 5] {
        let mut entries = vec![FILL; room];
        let mut direct_entries = entries.clone();
        let plain = list::call(good.as_ref(), label, &mut entries);
        assert_eq!(plain, direct::list(contents, bodies, label, &mut direct_entries), "{label:x?} {table:?}");
        assert!(entries == direct_entries, "{label:x?} {table:?}");
    }
}

/// Some label: one of the drawing's descriptions most often.
fn some_label(random: &mut Random, drawing: &Drawing) -> Vec<u16> {
    if random.once_in(4) {
        return random.pick(&all_labels()).clone();
    }
    random.pick(&list::opened(drawing)).description.to_vec()
}

fn all_alike(random: &mut Random, drawing: &Drawing, damaged: usize) {
    let (file, table) = (write::file(drawing), table::of(drawing));
    let (rows, words) = (table.contents.len(), table.bodies.len());
    for (contents, bodies) in
        [(rows, words), (rows + 3, words + 1), (rows - 1, words), (rows, words - 1), (0, 0)]
    {
        read_alike(&file, contents, bodies);
    }
    for room in [file.len(), file.len() + 9, file.len() - 1, 0] {
        table_alike(&table, room);
    }
    for _ in 0..4 {
        list_alike(&table, &some_label(random, drawing));
    }
    let (file_fields, body_fields) = (of_file(drawing), of_bodies(drawing));
    for _ in 0..damaged {
        read_alike(&files::any(random, &file, &file_fields), rows + 40, words + 200);
        let damaged = tables::any(random, &table, &body_fields);
        table_alike(&damaged, file.len() + 40);
        list_alike(&damaged, &some_label(random, drawing));
    }
}

#[test]
fn small_drawings() {
    for seed in 0..1500 {
        let mut random = Random::new(seed);
        let version = Version::ALL[seed as usize % Version::ALL.len()];
        let size = random.within(1, 900);
        let make = if random.flag() { generate::with_empty_groups } else { generate::drawing };
        all_alike(&mut random, &make(seed, version, size), 60);
    }
}

#[test]
fn drawings_at_limits() {
    let mut random = Random::new(1);
    for version in Version::ALL {
        all_alike(&mut random, &sampler(7, version), 200);
        for depth in 14..=18 {
            all_alike(&mut random, &of_depth(version, depth, &chars("deep")), 20);
        }
        for depth in 1..=18 {
            all_alike(&mut random, &empty_to_depth(version, depth, &chars("bay")), 60);
        }
        all_alike(&mut random, &plain_drawing(version, empty_groups(5_900)), 3);
        if version.has_chains() {
            for length in 3..=6 {
                all_alike(&mut random, &with_chains(3, version, [length, 0, length]), 20);
            }
        }
        for latex in [false, true] {
            all_alike(&mut random, &with_text_path(9, version, latex), 60);
        }
        for length in 65_533..=65_537 {
            all_alike(&mut random, &padded(generate::drawing(5, version, 20_000), length), 3);
        }
    }
}

#[test]
fn every_cut() {
    for version in Version::ALL {
        let drawing = sampler(11, version);
        let (file, table) = (write::file(&drawing), table::of(&drawing));
        for kept in 0..file.len() {
            read_alike(&file[..kept], table.contents.len(), table.bodies.len());
        }
    }
}

/// The last chars of one description, with the one before them as their length, look like another that is shorter; and the fields
/// before a description with its length look like chars of a longer one.
#[test]
fn labels_that_bodies_end_with() {
    let descriptions =
        [vec![], vec![0], vec![1, 65], vec![65], vec![2, 1, 65], vec![0, 0], vec![0, 1, 65], vec![0, 0, 0]];
    for version in Version::ALL.into_iter().filter(|version| version.has_descriptions()) {
        let bitmaps = descriptions.clone().map(|description| Bitmap { description, ..plain_bitmap(1) });
        let groups = bitmaps.clone().map(|bitmap| {
            let description = bitmap.description.clone();
            Object::Group(Group { objects: vec![Object::Bitmap(bitmap)], description })
        });
        let empty =
            descriptions.clone().map(|description| Object::Group(Group { objects: vec![], description }));
        let objects = bitmaps.map(Object::Bitmap).into_iter().chain(groups).chain(empty);
        let drawing = plain_drawing(version, objects.collect());
        let table = table::of(&drawing);
        for label in &descriptions {
            list_alike(&table, label);
        }
        // What every body ends with, as chars, where they fit.
        for row in 0..table.rows() {
            let [_, _, start, length] = table.row(row).unwrap() else { unreachable!() };
            let body = &table.bodies[*start as usize..][..*length as usize];
            for from in 0..body.len() {
                let label =
                    body[from..].iter().map(|word| u16::try_from(*word)).collect::<Result<Vec<_>, _>>();
                if let Ok(label) = label {
                    list_alike(&table, &label);
                }
            }
        }
    }
}
