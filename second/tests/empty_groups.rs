//! Where drawings have empty groups: those that are made from a seed, and those of the cases.

use second::check::{self, Good};
use second::generate::special::{empty_to_depth, sampler};
use second::generate::{self, chars};
use second::list;
use second::make::{lists, reads, table_data, tables, Case};
use second::model::{Chars, Drawing};
use second::read;
use second::table::{self, ROW};
use second::version::{Version, DEEPEST_GROUP};
use second::write;
use std::collections::BTreeSet;

/// The row and the depth of each empty group.
fn empty_groups(drawing: &Drawing) -> Vec<(u32, u32)> {
    let table = table::of(drawing);
    let around = list::groups_around(drawing);
    let rows = (0..).zip(table.contents.chunks_exact(ROW)).zip(around);
    let empty = rows.filter(|((_, words), _)| words[0] == 1 && table.bodies[words[2] as usize] == 0);
    empty.map(|((row, _), around)| (row, around.len() as u32 + 1)).collect()
}

fn depths(drawing: &Drawing) -> BTreeSet<u32> {
    empty_groups(drawing).into_iter().map(|(_, depth)| depth).collect()
}

fn every_depth() -> BTreeSet<u32> {
    (1..=DEEPEST_GROUP).collect()
}

#[test]
fn empty_groups_are_made_at_many_depths_and_the_outer_one_now_and_then() {
    for version in Version::ALL {
        let made: Vec<Drawing> =
            (0..400).map(|seed| generate::with_empty_groups(seed, version, 2_000)).collect();
        let met: BTreeSet<u32> = made.iter().flat_map(depths).collect();
        assert!((1..=6).all(|depth| met.contains(&depth)), "{version:?}: {met:?}");
        let outer = made.iter().filter(|drawing| drawing.outer.objects.is_empty()).count();
        assert!((20..=80).contains(&outer), "{version:?}: {outer}");
        let inner = made.iter().filter(|drawing| depths(drawing).iter().any(|depth| *depth > 1)).count();
        assert!(inner >= 200, "{version:?}: {inner}");
    }
}

#[test]
fn empty_groups_are_made_at_every_depth_that_is_asked_for() {
    for (version, depth) in Version::ALL.into_iter().flat_map(|version| [1, 2, 9, 16].map(|to| (version, to)))
    {
        let met = depths(&empty_to_depth(version, depth, &Chars::new()));
        assert!(met.into_iter().eq(2.min(depth)..=depth));
    }
}

#[test]
fn the_drawing_with_every_kind_of_part_has_one() {
    for (version, seed) in Version::ALL.into_iter().zip(1..) {
        assert!(depths(&sampler(seed, version)).contains(&2), "{version:?}");
    }
}

/// The plans that are measured stay as they were, so that figures can be compared.
#[test]
fn plain_drawings_have_none() {
    for version in Version::ALL {
        assert!((0..100).all(|seed| depths(&generate::drawing(seed, version, 1_000)).is_empty()));
    }
}

#[test]
fn the_read_cases_have_them_at_every_depth_of_every_version() {
    let drawings: Vec<Drawing> =
        reads::cases(1).iter().filter_map(|case| read::drawing(&case.data).ok()).collect();
    for version in Version::ALL {
        let such = drawings.iter().filter(|drawing| drawing.version == version);
        assert_eq!(such.flat_map(depths).collect::<BTreeSet<u32>>(), every_depth(), "{version:?}");
    }
}

#[test]
fn the_read_cases_have_the_smallest_file_of_every_version_and_its_count_negative() {
    let cases = reads::cases(1);
    let said = |file: &[u8]| cases.iter().find(|case| case.data == file).map(|case| case.groups[0].as_str());
    for version in Version::ALL {
        let mut file = write::file(&empty_to_depth(version, 1, &chars("bay")));
        let (length, words) = if version.has_descriptions() { (34, 8) } else { (24, 4) };
        assert!(said(&file).unwrap().starts_with(&format!("0 {length} 1 {words} ")), "{version:?}");
        file[19..23].fill(255);
        assert!(said(&file).unwrap().starts_with("8 19 0 0 "), "{version:?}");
    }
}

/// The good table of a case, and what comes behind it: the label of a list case.
fn asked(case: &Case) -> Option<(Good, Chars)> {
    let word = |bytes: &[u8]| u32::from_be_bytes(bytes.try_into().unwrap());
    let words: Vec<u32> = case.data.chunks_exact(4).map(word).collect();
    let (contents, rest) = words[2..].split_at(words[0] as usize);
    let (bodies, label) = rest.split_at(words[1] as usize);
    let label = label.iter().map(|char| u16::try_from(*char).unwrap()).collect();
    check::good(contents, bodies).map(|good| (good, label))
}

#[test]
fn the_table_cases_have_them_at_every_depth_of_every_version_and_with_a_wrong_count() {
    let cases = tables::cases(1);
    let good: Vec<Drawing> = cases.iter().filter_map(asked).map(|(good, _)| good.drawing).collect();
    for version in Version::ALL {
        let such = good.iter().filter(|drawing| drawing.version == version);
        assert_eq!(such.flat_map(depths).collect::<BTreeSet<u32>>(), every_depth(), "{version:?}");
        for n in [1, u32::MAX] {
            let mut table = table::of(&empty_to_depth(version, 3, &chars("bay")));
            let first = table.contents[ROW + 2] as usize;
            assert_eq!(std::mem::replace(&mut table.bodies[first], n), 0);
            let data = table_data(&table, []);
            let said = cases.iter().find(|case| case.data == data).map(|case| case.groups[0].as_str());
            assert_eq!(said, Some("16 0 0 0"), "{version:?}: {n}");
        }
    }
}

#[test]
fn the_list_cases_list_them_at_every_depth_of_every_version() {
    let all: Vec<(Good, Chars)> = lists::cases(1).iter().filter_map(asked).collect();
    for version in Version::ALL {
        let mut met = BTreeSet::new();
        let mut alone = 0;
        for (good, label) in all.iter().filter(|(good, _)| good.drawing.version == version) {
            // Below 1.2 there is no other label that lists anything.
            if label.is_empty() == version.has_descriptions() {
                continue;
            }
            let entries = list::entries(&good.drawing, label);
            let listed = empty_groups(&good.drawing).into_iter().filter(|(row, _)| entries.contains(row));
            met.extend(listed.map(|(_, depth)| depth));
            alone += usize::from(good.table.rows() == 1 && entries == [0]);
        }
        assert_eq!(met, every_depth(), "{version:?}");
        assert_eq!(alone, 1, "{version:?}");
    }
}
