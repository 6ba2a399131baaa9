//! Every cut and every fault at every field gives its number at that field's offset.

use second::damage::faults::faults;
use second::damage::fields::of_file;
use second::damage::files::put;
use second::generate::special::{empty_to_depth, sampler, with_text_path};
use second::generate::{self, chars};
use second::layout::Kind;
use second::model::Drawing;
use second::read::{self, Refusal};
use second::version::Version;
use second::write;
use std::collections::BTreeMap;

fn drawings() -> Vec<Drawing> {
    let mut all: Vec<Drawing> = Version::ALL.iter().map(|version| sampler(5, *version)).collect();
    for seed in 0..10 {
        all.extend(Version::ALL.iter().map(|version| generate::drawing(seed, *version, 600)));
        all.extend(Version::ALL.iter().map(|version| generate::with_empty_groups(seed, *version, 600)));
    }
    all.extend(Version::ALL.iter().map(|version| empty_to_depth(*version, 16, &chars("bay"))));
    all
}

#[test]
fn every_cut_is_2_at_the_field_that_it_cuts() {
    for drawing in drawings() {
        let file = write::file(&drawing);
        for field in of_file(&drawing) {
            for kept in field.place..field.place + field.kind.width() {
                let refusal = Refusal { number: 2, offset: field.place as u32 };
                assert_eq!(read::drawing(&file[..kept]).unwrap_err(), refusal);
            }
        }
    }
}

#[test]
fn every_fault_has_its_number_and_offset() {
    let mut seen = BTreeMap::new();
    for drawing in drawings() {
        let file = write::file(&drawing);
        for field in of_file(&drawing) {
            for fault in faults(field.kind, field.value) {
                let refusal = Refusal { number: fault.number, offset: field.place as u32 };
                let damaged = put(&file, &field, fault.value);
                assert_eq!(read::drawing(&damaged).unwrap_err(), refusal, "{field:?} {fault:?}");
                *seen.entry((drawing.version.minor(), fault.number)).or_insert(0) += 1;
            }
        }
    }
    for version in Version::ALL.map(Version::minor) {
        for number in 3..=12 {
            let there = number != 5 && (number != 12 || version < 3);
            assert_eq!(seen.contains_key(&(version, number)), there, "1.{version}: {number}");
        }
    }
}

#[test]
fn a_groups_count_of_0_is_no_fault_and_a_negative_one_is() {
    for drawing in drawings() {
        let file = write::file(&drawing);
        for field in of_file(&drawing).iter().filter(|field| field.kind == Kind::Members) {
            let at_field = |value: i32| {
                let refusal = read::drawing(&put(&file, field, u64::from(value.cast_unsigned()))).err();
                refusal.filter(|refusal| refusal.offset == field.place as u32)
            };
            assert_eq!(at_field(0), None);
            for negative in [-1, i32::MIN] {
                assert_eq!(at_field(negative).map(|refusal| refusal.number), Some(8));
            }
        }
    }
}

#[test]
fn a_text_along_a_path_is_7_at_its_id_char_below_1_5() {
    for version in Version::ALL {
        for latex in [false, true] {
            let refusal = read::drawing(&write::file(&with_text_path(4, version, latex))).err();
            let wanted = Refusal { number: 7, offset: 23 };
            assert_eq!(refusal, (!version.has_text_paths()).then_some(wanted));
        }
    }
}

#[test]
fn bytes_after_the_outer_group_are_13() {
    for drawing in drawings() {
        let mut file = write::file(&drawing);
        let refusal = Refusal { number: 13, offset: file.len() as u32 };
        file.push(0);
        assert_eq!(read::drawing(&file).unwrap_err(), refusal);
        file.extend([1, 2, 3]);
        assert_eq!(read::drawing(&file).unwrap_err(), refusal);
    }
}
