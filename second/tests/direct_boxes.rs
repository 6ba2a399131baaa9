//! The direct box is the plain one, bit by bit, on good, damaged and extreme tables.

use second::damage::fields::of_bodies;
use second::damage::tables;
use second::generate::coordinates::{paths, scattered};
use second::generate::special::{
    empty_groups, nan_sampler, of_depth, padded, plain_drawing, sampler, with_text_path,
};
use second::generate::{self, Maker};
use second::model::{Drawing, Object};
use second::random::Random;
use second::table::{self, Table};
use second::version::Version;
use second::{check, direct, extent};
use std::collections::BTreeMap;

/// How often each number was answered.
type Numbers = BTreeMap<u32, usize>;

/// The boxes of these rows.
fn rows_alike(numbers: &mut Numbers, table: &Table, rows: impl IntoIterator<Item = u32>) {
    let good = check::good(&table.contents, &table.bodies);
    for row in rows {
        let plain = extent::call(good.as_ref(), row).words();
        let direct = direct::extent(&table.contents, &table.bodies, row).words();
        assert_eq!(plain, direct, "row {row} of {table:?}");
        *numbers.entry(plain[0]).or_default() += 1;
    }
}

/// The boxes of all rows, and of rows past the end.
fn boxes_alike(numbers: &mut Numbers, table: &Table) {
    let past = [table.rows(), table.rows() + 1, 0x4000_0001, u32::MAX];
    rows_alike(numbers, table, (0..table.rows()).chain(past));
}

fn damaged_alike(numbers: &mut Numbers, random: &mut Random, drawing: &Drawing, times: usize) {
    let (table, fields) = (table::of(drawing), of_bodies(drawing));
    boxes_alike(numbers, &table);
    for _ in 0..times {
        boxes_alike(numbers, &tables::any(random, &table, &fields));
    }
}

#[test]
fn small_drawings() {
    let mut numbers = Numbers::new();
    for seed in 0..1_000 {
        let mut random = Random::new(seed);
        let version = Version::ALL[seed as usize % Version::ALL.len()];
        let drawing = match seed / 6 % 4 {
            0 => generate::drawing(seed, version, 600),
            1 => paths(seed, version, 5),
            _ => scattered(&mut random, generate::with_empty_groups(seed, version, 600)),
        };
        damaged_alike(&mut numbers, &mut random, &drawing, 20);
    }
    assert!(numbers.keys().copied().eq([0, 6, 7, 16, 20]), "{numbers:?}");
    assert!(numbers.values().all(|count| *count >= 2_000), "{numbers:?}");
}

#[test]
fn drawings_at_limits() {
    let mut numbers = Numbers::new();
    let mut random = Random::new(1);
    for version in Version::ALL {
        for drawing in [sampler(7, version), nan_sampler(7, version), with_text_path(9, version, true)] {
            damaged_alike(&mut numbers, &mut random, &drawing, 50);
            let drawing = scattered(&mut random, drawing);
            damaged_alike(&mut numbers, &mut random, &drawing, 50);
        }
        for depth in 15..=18 {
            boxes_alike(&mut numbers, &table::of(&of_depth(version, depth, &vec![])));
        }
        for length in 65_534..=65_537 {
            let drawing = padded(scattered(&mut random, generate::drawing(5, version, 3_000)), length);
            boxes_alike(&mut numbers, &table::of(&drawing));
        }
        let many = table::of(&plain_drawing(version, empty_groups(5_900)));
        rows_alike(&mut numbers, &many, [0, 1, 5_900, 5_901]);
    }
    assert!(numbers.keys().copied().eq([0, 6, 7, 16, 20]), "{numbers:?}");
}

/// Paths of many segments.
#[test]
fn long_paths() {
    let mut numbers = Numbers::new();
    for version in Version::ALL {
        for seed in 0..40 {
            let mut maker = Maker::new(seed, version);
            let mut path = maker.path();
            path.outline.segments = (0..300).map(|place| maker.segment_of(b"BLM"[place % 3])).collect();
            let drawing = plain_drawing(version, vec![Object::Path(path)]);
            let drawing = scattered(&mut Random::new(seed), drawing);
            boxes_alike(&mut numbers, &table::of(&drawing));
        }
    }
    assert!(numbers[&0] >= 50 && numbers[&20] >= 50, "{numbers:?}");
}
