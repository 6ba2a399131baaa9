//! Flags (02, R-4): in a file any byte but 0 is true, the table holds 1 and the writer writes 1; in a table no other word is.

use second::damage::faults::OTHER_TRUE;
use second::damage::fields::{of_bodies, of_file};
use second::damage::files::{is_true_flag, put, respelled};
use second::damage::tables;
use second::generate;
use second::generate::special::sampler;
use second::layout::Kind;
use second::make::reads::{self, TRUE_BYTES};
use second::model::Drawing;
use second::random::Random;
use second::version::Version;
use second::{check, read, table, write};

fn drawings() -> Vec<Drawing> {
    let of =
        |version| (0..20).map(move |seed| generate::drawing(seed, version, 600)).chain([sampler(3, version)]);
    Version::ALL.into_iter().flat_map(of).collect()
}

/// The sorts of flag that a version has.
fn sorts(version: Version) -> Vec<&'static str> {
    let minor = version.minor();
    let mut sorts = vec!["grid", "lock", "rulers", "LaTeX", "bitmap", "reversed"];
    if minor < 3 {
        sorts.extend(["settings", "portrait"]);
    }
    if minor == 0 {
        sorts.push("double");
    } else {
        sorts.extend(["auto-orient", "overlay"]);
    }
    if minor >= 4 {
        sorts.extend(["first offset", "second offset"]);
    }
    sorts
}

#[test]
fn the_cases_have_every_sort_of_flag_in_every_version() {
    let cases = reads::cases(1);
    for version in Version::ALL {
        for (sort, byte) in sorts(version).into_iter().flat_map(|sort| TRUE_BYTES.map(|byte| (sort, byte))) {
            let what = format!("1.{}: {sort} flag of {byte} at ", version.minor());
            let such: Vec<_> = cases.iter().filter(|case| case.name.starts_with(&what)).collect();
            let [case] = such[..] else { panic!("{what}: {} cases", such.len()) };
            let drawing = read::drawing(&case.data).unwrap();
            assert_eq!(case.data.iter().zip(&write::file(&drawing)).filter(|(a, b)| a != b).count(), 1);
        }
        for byte in TRUE_BYTES {
            let what = format!("1.{}: 11: flow flag of {byte} at ", version.minor());
            assert!(cases.iter().any(|case| case.name.starts_with(&what)), "{what}");
        }
    }
}

#[test]
fn every_true_flag_may_be_any_byte_but_0() {
    for drawing in drawings() {
        let file = write::file(&drawing);
        for field in of_file(&drawing).iter().filter(|field| is_true_flag(field)) {
            for byte in 2..=255 {
                assert_eq!(read::drawing(&put(&file, field, byte)).as_ref(), Ok(&drawing));
            }
        }
    }
}

#[test]
fn a_file_comes_back_with_each_true_flag_made_1() {
    let mut random = Random::new(7);
    let mut changed = 0;
    for drawing in drawings() {
        let file = write::file(&drawing);
        let other = respelled(&mut random, &file, &of_file(&drawing));
        changed += usize::from(other != file);
        assert_eq!(write::file(&read::drawing(&other).unwrap()), file);
    }
    assert!(changed > 100, "{changed}");
}

#[test]
fn a_flow_flag_that_is_not_0_is_11() {
    for drawing in drawings() {
        let file = write::file(&drawing);
        for field in of_file(&drawing).iter().filter(|field| field.kind == Kind::FlowFlag) {
            for byte in 1..=255 {
                let refusal = read::drawing(&put(&file, field, byte)).unwrap_err();
                assert_eq!((refusal.number, refusal.offset as usize), (11, field.place));
            }
        }
    }
}

#[test]
fn a_word_of_a_table_is_0_or_1() {
    for drawing in drawings() {
        let good = table::of(&drawing);
        for field in of_bodies(&drawing).iter().filter(|field| is_true_flag(field)) {
            for word in OTHER_TRUE {
                let mut table = good.clone();
                tables::put(&mut table.bodies, field, word);
                assert!(check::good(&table.contents, &table.bodies).is_none());
            }
        }
    }
}
