//! The direct answer of the description question is the plain one, on good, damaged and extreme tables.

use second::damage::fields::of_bodies;
use second::damage::tables;
use second::generate::special::{of_depth, padded, sampler};
use second::generate::{self, chars};
use second::model::Drawing;
use second::random::Random;
use second::table::{self, Table};
use second::version::Version;
use second::{ask, check, direct};
use std::collections::BTreeMap;

/// How often each number was answered.
type Numbers = BTreeMap<u32, usize>;

/// All rows, and rows past the end. What a place holds are the chars of the description.
fn alike(numbers: &mut Numbers, table: &Table) {
    let good = check::good(&table.contents, &table.bodies);
    let past = [table.rows(), table.rows() + 1, 0x4000_0001, u32::MAX];
    for row in (0..table.rows()).chain(past) {
        let plain = ask::description(good.as_ref(), row);
        assert_eq!(plain, direct::description(&table.contents, &table.bodies, row), "row {row} of {table:?}");
        *numbers.entry(plain.number).or_default() += 1;
        if let Ok((good, object)) = ask::object(good.as_ref(), row) {
            let chars: Vec<u32> = object.description.iter().copied().map(u32::from).collect();
            assert_eq!(good.table.bodies[plain.start as usize..][..plain.length as usize], chars);
        }
    }
}

fn damaged_alike(numbers: &mut Numbers, random: &mut Random, drawing: &Drawing, times: usize) {
    let (table, fields) = (table::of(drawing), of_bodies(drawing));
    alike(numbers, &table);
    for _ in 0..times {
        alike(numbers, &tables::any(random, &table, &fields));
    }
}

#[test]
fn drawings_and_damaged_ones() {
    let mut numbers = Numbers::new();
    for seed in 0..400 {
        let mut random = Random::new(seed);
        let version = Version::ALL[seed as usize % Version::ALL.len()];
        let drawing = match seed / 6 % 3 {
            0 => generate::drawing(seed, version, 600),
            1 => sampler(seed, version),
            _ => generate::with_empty_groups(seed, version, 600),
        };
        damaged_alike(&mut numbers, &mut random, &drawing, 10);
    }
    assert!(numbers.keys().copied().eq([0, 6, 16]), "{numbers:?}");
    assert!(numbers.values().all(|count| *count >= 1_000), "{numbers:?}");
}

#[test]
fn extremes() {
    let mut numbers = Numbers::new();
    for version in Version::ALL {
        alike(&mut numbers, &table::of(&of_depth(version, 16, &chars("deep"))));
        alike(&mut numbers, &table::of(&padded(generate::drawing(1, version, 100), 65_535)));
    }
    alike(&mut numbers, &Table::default());
    assert!(numbers.keys().copied().eq([0, 6, 16]), "{numbers:?}");
}
