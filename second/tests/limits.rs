//! Depth 16 and 17, 4 and 5 markers, and files at the limit.

use second::damage::fields::of_file;
use second::damage::tables::deep;
use second::generate::special::{
    empty_groups, empty_to_depth, nested, of_depth, padded, plain_bitmap, plain_drawing, with_chains,
};
use second::generate::{self, chars};
use second::layout::Kind;
use second::model::{Drawing, Object};
use second::read::{self, Refusal};
use second::version::Version;
use second::{check, table, write};

fn refusal(drawing: &Drawing) -> Option<Refusal> {
    read::drawing(&write::file(drawing)).err()
}

/// Whether the table of this drawing is good; it has to be exactly if its file is accepted.
fn agrees(drawing: &Drawing) -> bool {
    let table = table::of(drawing);
    check::good(&table.contents, &table.bodies).is_some() == refusal(drawing).is_none()
}

#[test]
fn depth_16_is_accepted_and_17_refused() {
    for version in Version::ALL {
        let deep = of_depth(version, 16, &chars("d"));
        assert_eq!(refusal(&deep), None);
        assert!(agrees(&deep));
        let deeper = of_depth(version, 17, &chars("d"));
        // The outer id char stands at 17; each group's id char and n are 6 bytes.
        assert_eq!(refusal(&deeper), Some(Refusal { number: 10, offset: 17 + 16 * 6 }));
        assert!(agrees(&deeper));
    }
}

#[test]
fn an_empty_group_is_accepted_at_depth_16_and_refused_at_17() {
    for version in Version::ALL {
        for depth in 1..=16 {
            let deep = empty_to_depth(version, depth, &chars("d"));
            assert_eq!(refusal(&deep), None);
            assert!(agrees(&deep));
        }
        let inside = |groups| plain_drawing(version, vec![nested(empty_groups(1).remove(0), groups)]);
        assert_eq!(refusal(&inside(14)), None);
        assert_eq!(refusal(&inside(15)), Some(Refusal { number: 10, offset: 17 + 16 * 6 }));
        assert!(agrees(&inside(14)) && agrees(&inside(15)));
        let deeper = empty_to_depth(version, 17, &chars("d"));
        // Up to there each depth has an empty group before the next one, and the first of the last depth is too deep.
        let each = if version.has_descriptions() { 6 + 13 } else { 6 + 7 };
        assert_eq!(refusal(&deeper), Some(Refusal { number: 10, offset: 17 + 15 * each + 6 }));
        assert!(agrees(&deeper));
    }
}

#[test]
fn the_most_rows_there_can_be() {
    let [v0, ..] = Version::ALL;
    let most = plain_drawing(v0, empty_groups(9_358));
    assert_eq!(write::file(&most).len(), 65_530);
    assert_eq!(table::of(&most).rows(), 9_359);
    assert_eq!(refusal(&most), None);
    assert!(agrees(&most));
    let more = plain_drawing(v0, empty_groups(9_359));
    assert_eq!(refusal(&more), Some(Refusal { number: 1, offset: 65_535 }));
    assert!(agrees(&more));
}

#[test]
fn a_deep_table_is_good_up_to_16() {
    for groups in [1, 15, 16, 17, 40, 20_000] {
        let table = deep(groups);
        assert_eq!(check::good(&table.contents, &table.bodies).is_some(), groups <= 16);
    }
}

#[test]
fn leaves_and_ended_groups_at_depth_16_are_fine() {
    let leaf = || Object::Bitmap(plain_bitmap(1));
    let objects = vec![nested(leaf(), 15), leaf(), nested(leaf(), 15), nested(leaf(), 1)];
    assert_eq!(refusal(&plain_drawing(Version::ALL[0], objects)), None);
}

#[test]
fn four_markers_are_accepted_and_five_refused() {
    for version in &Version::ALL[1..] {
        for lengths in [[4, 4, 4], [0, 4, 0]] {
            let drawing = with_chains(1, *version, lengths);
            assert_eq!(refusal(&drawing), None);
            assert!(agrees(&drawing));
        }
        for lengths in [[5, 0, 0], [4, 5, 0], [1, 2, 5], [0, 0, 7]] {
            let drawing = with_chains(1, *version, lengths);
            let fifth = |kind| matches!(kind, Kind::MarkerId { before: Some(4), .. });
            let is_over = |field: &&second::damage::fields::Field| fifth(field.kind) && field.value != 0;
            let fields = of_file(&drawing);
            let offset = fields.iter().find(is_over).unwrap().place as u32;
            assert_eq!(refusal(&drawing), Some(Refusal { number: 10, offset }));
            assert!(agrees(&drawing));
        }
    }
}

#[test]
fn a_fifth_marker_outside_its_list_is_6() {
    let drawing = with_chains(1, Version::ALL[2], [4, 0, 0]);
    let fields = of_file(&drawing);
    let closing = fields.iter().find(|field| field.kind.is_after_full_chain()).unwrap();
    let mut file = write::file(&drawing);
    file[closing.place] = 22;
    assert_eq!(read::drawing(&file).unwrap_err(), Refusal { number: 6, offset: closing.place as u32 });
    file[closing.place] = 21;
    assert_eq!(read::drawing(&file).unwrap_err(), Refusal { number: 10, offset: closing.place as u32 });
}

#[test]
fn files_at_the_limit() {
    for version in Version::ALL {
        for length in [65_534, 65_535] {
            let drawing = padded(generate::drawing(3, version, 5_000), length);
            assert_eq!(write::file(&drawing).len(), length);
            assert_eq!(refusal(&drawing), None);
            assert!(agrees(&drawing));
        }
        let drawing = padded(generate::drawing(3, version, 5_000), 65_536);
        assert_eq!(write::file(&drawing).len(), 65_536);
        assert_eq!(refusal(&drawing), Some(Refusal { number: 1, offset: 65_535 }));
        assert!(agrees(&drawing));
    }
}
