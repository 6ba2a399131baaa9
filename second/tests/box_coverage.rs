//! What coordinates the generated drawings have, and what the box cases hold between them in every version.

use second::answer::BoxAnswer;
use second::check::{self, Good};
use second::extent::{self, outline_of};
use second::generate;
use second::generate::coordinates::{coordinates_mut, each_outline, paths, scattered, CLOSE, NANS};
use second::list::{self, Part};
use second::make::{boxes, Case};
use second::model::{Double, Drawing, Outline, Point, Segment};
use second::random::Random;
use second::table::Table;
use second::version::Version;
use std::collections::{BTreeMap, BTreeSet};

/// A case's table with what this program makes of it, and the rows that are asked about.
struct Asked {
    table: Table,
    good: Option<Good>,
    rows: Vec<u32>,
}

/// The data file: two counts, the contents and bodies that they count, and the rows.
fn asked(case: &Case) -> Asked {
    let word = |bytes: &[u8]| u32::from_be_bytes(bytes.try_into().unwrap());
    let words: Vec<u32> = case.data.chunks_exact(4).map(word).collect();
    let (contents, rest) = words[2..].split_at(words[0] as usize);
    let (bodies, rows) = rest.split_at(words[1] as usize);
    let good = check::good(contents, bodies);
    Asked { table: Table { contents: contents.to_vec(), bodies: bodies.to_vec() }, good, rows: rows.to_vec() }
}

/// The good cases of a version.
fn good_cases(version: Version) -> Vec<Asked> {
    let cases = boxes::cases(1);
    let all = cases.iter().map(asked);
    all.filter(|asked| asked.good.as_ref().is_some_and(|good| good.drawing.version == version)).collect()
}

/// Each outline that is asked about: whether it is a path's own, its coordinates in file order, and its box.
fn outlines(version: Version) -> Vec<(bool, Vec<Double>, BoxAnswer)> {
    let mut all = Vec::new();
    for asked in good_cases(version) {
        let good = asked.good.as_ref().unwrap();
        let objects = list::opened(&good.drawing);
        for row in asked.rows.iter().filter(|row| (**row as usize) < objects.len()) {
            let part = objects[*row as usize].part;
            if let Some(outline) = outline_of(&part) {
                all.push((
                    matches!(part, Part::Path(_)),
                    coordinates(outline),
                    extent::call(Some(good), *row),
                ));
            }
        }
    }
    all
}

fn coordinates(outline: &Outline) -> Vec<Double> {
    coordinates_mut(&mut outline.clone()).into_iter().map(|coordinate| *coordinate).collect()
}

/// The bits of the four sides.
fn sides(answer: &BoxAnswer) -> [Double; 4] {
    [answer.left, answer.bottom, answer.right, answer.top].map(f64::to_bits)
}

#[test]
fn a_line_has_the_row_the_number_and_the_bits_of_each_box() {
    for case in boxes::cases(1) {
        let Asked { good, rows, .. } = asked(&case);
        assert_eq!(rows.len(), case.groups.len());
        for (row, group) in rows.iter().zip(&case.groups) {
            let answer = extent::call(good.as_ref(), *row);
            let words: Vec<&str> = group.split(' ').collect();
            assert_eq!(words[..2], [format!("{row}:"), answer.number.to_string()]);
            let bits: Vec<u64> =
                words[2..].iter().map(|word| u64::from_str_radix(word, 16).unwrap()).collect();
            assert!(words[2..].iter().all(|word| word.len() == 16) && bits == sides(&answer), "{group}");
        }
    }
}

#[test]
fn every_number_occurs_in_every_version() {
    let cases = boxes::cases(1);
    assert!(cases.len() <= 200 && cases.iter().map(|case| case.data.len()).sum::<usize>() < 600_000);
    for version in Version::ALL {
        let of_version = |case: &&Case| case.name.starts_with(&format!("1.{}: ", version.minor()));
        let mut numbers = BTreeMap::new();
        for group in cases.iter().filter(of_version).flat_map(|case| &case.groups) {
            *numbers.entry(group.split(' ').nth(1).unwrap()).or_insert(0) += 1;
        }
        assert!(numbers.keys().copied().eq(["0", "16", "20", "6", "7"]), "{numbers:?}");
        assert!(numbers.values().all(|count| *count >= 20), "{numbers:?}");
    }
}

#[test]
fn bad_tables_are_asked_about_every_row_and_past_the_end() {
    let bad: Vec<Asked> = boxes::cases(1).iter().map(asked).filter(|asked| asked.good.is_none()).collect();
    assert!(bad.len() >= 6 * Version::ALL.len());
    for Asked { table, rows, .. } in bad {
        assert!((0..=table.rows()).chain([u32::MAX]).all(|row| rows.contains(&row)));
    }
}

#[test]
fn each_side_has_every_sort_of_number() {
    for version in Version::ALL {
        let boxes: Vec<BoxAnswer> = outlines(version).into_iter().map(|(_, _, answer)| answer).collect();
        for side in 0..4 {
            let met: BTreeSet<Double> =
                boxes.iter().filter(|answer| answer.number == 0).map(|answer| sides(answer)[side]).collect();
            for wanted in [0.0, -0.0, f64::INFINITY, f64::NEG_INFINITY] {
                assert!(met.contains(&wanted.to_bits()), "{version:?}: side {side} has no {wanted}");
            }
            // In pairs of neighbours each number but the last is the less, and each but the first the greater; y has the other sign.
            let sign = (side as Double % 2) << 63;
            let close = CLOSE.iter().filter(|bits| met.contains(&(**bits | sign))).count();
            assert!(close >= CLOSE.len() - 1, "{version:?}: side {side} has {close}");
        }
    }
}

/// Where zeros of both signs are among the coordinates of an axis, each side takes the one here and the other there.
#[test]
fn zeros_of_both_signs_come_in_both_orders() {
    for version in Version::ALL {
        let mut seen = BTreeSet::new();
        for (_, coordinates, answer) in outlines(version).iter().filter(|(_, _, answer)| answer.number == 0) {
            for (side, bits) in sides(answer).into_iter().enumerate().filter(|(_, bits)| bits << 1 == 0) {
                let axis = coordinates.iter().skip(side % 2).step_by(2);
                let zeros: BTreeSet<Double> = axis.copied().filter(|bits| bits << 1 == 0).collect();
                if zeros.len() == 2 {
                    seen.insert((side, bits));
                }
            }
        }
        assert_eq!(seen.len(), 8, "{version:?}: {seen:?}");
    }
}

/// Each coordinate of an outline with all segments is a NaN once and nothing else is; and each is the furthest out.
#[test]
fn each_coordinate_decides() {
    for version in Version::ALL {
        let all = outlines(version);
        let mut nans = BTreeSet::new();
        let mut met = BTreeSet::new();
        let mut furthest = BTreeSet::new();
        for (own, coordinates, answer) in all.iter().filter(|(_, coordinates, _)| coordinates.len() == 12) {
            let at: Vec<usize> = (0..12).filter(|at| f64::from_bits(coordinates[*at]).is_nan()).collect();
            met.extend(at.iter().map(|at| coordinates[*at]));
            if let [at] = at[..] {
                assert_eq!(answer.number, 20);
                nans.insert((*own, at));
            }
            for (side, bits) in sides(answer).iter().enumerate() {
                let equal: Vec<usize> =
                    (side % 2..12).step_by(2).filter(|at| coordinates[*at] == *bits).collect();
                if let ([at], 0) = (&equal[..], answer.number) {
                    furthest.insert((*own, side, *at));
                }
            }
        }
        let kinds = if version.has_text_paths() { 2 } else { 1 };
        assert_eq!(nans.len(), 12 * kinds, "{version:?}: {nans:?}");
        assert_eq!(furthest.len(), 24 * kinds, "{version:?}: {furthest:?}");
        assert!(NANS.iter().all(|nan| met.contains(nan)), "{version:?}");
    }
}

#[test]
fn texts_along_paths_have_a_box_in_spite_of_their_transformation() {
    let mut with_box = 0;
    for Asked { good, .. } in good_cases(Version::ALL[5]) {
        let good = good.unwrap();
        for (row, object) in (0..).zip(list::opened(&good.drawing)) {
            if let Part::TextPath(along) = object.part {
                let nan = along.text.style.transformation.iter().any(|bits| f64::from_bits(*bits).is_nan());
                with_box += usize::from(nan && extent::call(Some(&good), row).number == 0);
            }
        }
    }
    assert!(with_box >= 50, "{with_box}");
}

/// The numbers and the sides of the boxes of drawings as `compare` takes them.
fn of_drawings(version: Version, make: impl Fn(u64) -> Drawing) -> (BTreeSet<u32>, Vec<[Double; 4]>) {
    let mut numbers = BTreeSet::new();
    let mut all = Vec::new();
    for drawing in (0..400).map(make) {
        assert_eq!(drawing.version, version);
        for part in list::opened(&drawing).iter().filter_map(|object| outline_of(&object.part)) {
            match extent::around(version, part) {
                Ok(answer) => all.push(sides(&answer)),
                Err(number) => {
                    numbers.insert(number);
                }
            }
        }
    }
    (numbers, all)
}

#[test]
fn generated_coordinates_are_of_every_sort() {
    for version in Version::ALL {
        let of_paths = of_drawings(version, |seed| paths(seed, version, 4));
        let of_all = of_drawings(version, |seed| {
            scattered(&mut Random::new(seed), generate::drawing(seed, version, 900))
        });
        for (numbers, sides) in [of_paths, of_all] {
            assert!(numbers.into_iter().eq([20]));
            let share = |wanted: fn(f64) -> bool| {
                let having = |sides: &&[Double; 4]| sides.iter().any(|side| wanted(f64::from_bits(*side)));
                sides.iter().filter(having).count() * 100 / sides.len()
            };
            let shares = [
                share(|side| side.to_bits() == 0),
                share(|side| side == 0.0 && side.is_sign_negative()),
                share(f64::is_infinite),
                share(f64::is_subnormal),
            ];
            assert!(shares.iter().all(|share| *share >= 10), "{version:?}: {shares:?}");
        }
    }
}

#[test]
fn scattering_changes_coordinates_alone() {
    for (seed, version) in (0..60).flat_map(|seed| Version::ALL.map(|version| (seed, version))) {
        let drawing = generate::drawing(seed, version, 900);
        let mut both = [scattered(&mut Random::new(seed), drawing.clone()), drawing];
        for drawing in &mut both {
            let blank = &mut |outline: &mut Outline| {
                coordinates_mut(outline).into_iter().for_each(|coordinate| *coordinate = 0);
            };
            each_outline(&mut drawing.outer.objects, blank);
        }
        assert!(both[0] == both[1]);
    }
}

#[test]
fn coordinates_stand_in_file_order() {
    let point = |x| Point { x, y: x + 1 };
    let segments =
        vec![Segment::Bezier([3, 5, 7].map(point)), Segment::Move(point(9)), Segment::Line(point(11))];
    let outline = Outline { closed: true, start: point(1), segments };
    assert_eq!(coordinates(&outline), (1..=12).collect::<Vec<Double>>());
}
