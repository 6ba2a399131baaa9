//! The direct calls of sheets give the plain answers and leave lent memory as the plain ones do.

use second::answer::Answer;
use second::damage::fields::of_bodies;
use second::damage::sheets::{any, careless, every, wrapped};
use second::damage::tables;
use second::generate::sheets::{many_rows, many_words};
use second::generate::special::{
    empty_groups, empty_to_depth, of_depth, padded, plain_drawing, sampler, with_chains, with_text_path,
};
use second::generate::{self, chars};
use second::model::Drawing;
use second::random::Random;
use second::table::{self, Table};
use second::version::Version;
use second::{check, direct, sheet};

const FILL: u32 = 0xA5A5_A5A5;

fn read_alike(bytes: &[u8], contents_room: usize, bodies_room: usize) -> Answer {
    let (mut contents, mut bodies) = (vec![FILL; contents_room], vec![FILL; bodies_room]);
    let (mut direct_contents, mut direct_bodies) = (contents.clone(), bodies.clone());
    let plain = sheet::read_call(bytes, &mut contents, &mut bodies);
    let direct = direct::sheet_read(bytes, &mut direct_contents, &mut direct_bodies);
    assert_eq!(plain, direct, "{bytes:02x?}");
    assert!(contents == direct_contents && bodies == direct_bodies, "{bytes:02x?}");
    plain
}

fn write_alike(table: &Table, room: usize) {
    let good = check::good(&table.contents, &table.bodies);
    let mut bytes = vec![FILL as u8; room];
    let mut direct_bytes = bytes.clone();
    let plain = sheet::write_call(good.as_ref(), &mut bytes);
    let direct = direct::sheet_write(&table.contents, &table.bodies, &mut direct_bytes);
    assert_eq!(plain, direct, "{table:?}");
    assert!(bytes == direct_bytes, "{table:?}");
}

/// Rooms around those needed, and so much damage. How many sheets were accepted, and how many were refused.
fn all_alike(random: &mut Random, drawing: &Drawing, damaged: usize) -> [usize; 2] {
    let table = table::of(drawing);
    let sheet = careless(&table);
    let (rows, words, length) = (table.contents.len(), table.bodies.len(), sheet.len());
    let rooms = [(rows, words), (rows + 3, words + 1), (rows - 1, words), (rows, words - 1), (0, 0)];
    for (contents, bodies) in rooms {
        read_alike(&sheet, contents, bodies);
    }
    for room in [length, length + 9, length - 1, 0] {
        write_alike(&table, room);
    }
    let fields = of_bodies(drawing);
    let mut counts = [0; 2];
    for _ in 0..damaged {
        let answer = read_alike(&any(random, &table, &fields), rows + 40, words + 200);
        counts[usize::from(answer.number != 0)] += 1;
        write_alike(&tables::any(random, &table, &fields), length + 40);
    }
    counts
}

#[test]
fn small_drawings() {
    let mut counts = [0; 2];
    for seed in 0..800 {
        let mut random = Random::new(seed);
        let version = Version::ALL[seed as usize % Version::ALL.len()];
        let size = random.within(1, 900);
        let make = if random.flag() { generate::with_empty_groups } else { generate::drawing };
        let [accepted, refused] = all_alike(&mut random, &make(seed, version, size), 60);
        counts = [counts[0] + accepted, counts[1] + refused];
    }
    assert!(counts.iter().all(|count| *count > 2_000), "{counts:?}");
}

#[test]
fn drawings_at_limits() {
    let mut random = Random::new(1);
    for version in Version::ALL {
        all_alike(&mut random, &sampler(7, version), 100);
        for depth in 15..=17 {
            all_alike(&mut random, &of_depth(version, depth, &chars("deep")), 20);
            all_alike(&mut random, &empty_to_depth(version, depth, &chars("bay")), 20);
        }
        all_alike(&mut random, &empty_to_depth(version, 1, &chars("bay")), 60);
        all_alike(&mut random, &plain_drawing(version, empty_groups(5_900)), 3);
        if version.has_chains() {
            for length in 3..=6 {
                all_alike(&mut random, &with_chains(3, version, [length, 0, length]), 20);
            }
            all_alike(&mut random, &many_words(version), 3);
        }
        all_alike(&mut random, &with_text_path(9, version, true), 60);
        all_alike(&mut random, &many_rows(version), 3);
        for length in 65_533..=65_537 {
            all_alike(&mut random, &padded(generate::drawing(5, version, 20_000), length), 3);
        }
    }
}

#[test]
fn every_cut_and_every_damage_by_name() {
    for version in Version::ALL {
        let table = table::of(&sampler(11, version));
        let sheet = careless(&table);
        for kept in 0..=sheet.len() {
            read_alike(&sheet[..kept], table.contents.len(), table.bodies.len());
        }
        for (_, sheet) in every(&table).into_iter().chain(wrapped(&table, 1)).chain(wrapped(&table, 2)) {
            read_alike(&sheet, table.contents.len(), table.bodies.len());
        }
    }
}
