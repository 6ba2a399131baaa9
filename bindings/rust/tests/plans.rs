//! Tables as a program uses them: the example plans, refusals, labels of any chars; and that the crate says what include/jdr.h says.
#![cfg(feature = "alloc")]

mod common;

use common::{plan, plans};
use jdr::{Colour, Kind, Paint, Reason, Table, TableRef, Which};

#[test]
fn every_plan_comes_back() {
    for (name, file) in plans() {
        if name == "cut.jdr" {
            continue;
        }
        let table = Table::read(&file).unwrap_or_else(|refused| panic!("{name}: {refused}"));
        // a converter's plan has 255 for true, and is the other one with each true flag made 1
        let written = if name == "converter.jdr" { plan("bays.jdr") } else { file };
        assert_eq!(table.write(), written, "{name}");
        let sheet = plan(&name.replace(".jdr", ".sheet"));
        assert_eq!(table.write_sheet(), sheet, "{name}");
        assert_eq!(Table::read_sheet(&sheet).as_ref(), Ok(&table), "{name}");
        assert_eq!(table.view().to_table(), table);
        let (contents, bodies) = table.clone().into_words();
        assert_eq!(Table::from_words(contents, bodies), Ok(table), "{name}");
    }
}

#[test]
fn a_cut_plan_is_refused() {
    let file = plan("cut.jdr");
    let refused = Table::read(&file).expect_err("a cut plan");
    assert_eq!((refused.reason, refused.number(), refused.rows), (Reason::Cut, 2, 0));
    assert!((refused.offset as usize) < file.len());
    assert!(refused.to_string().starts_with(refused.message()));
}

#[test]
fn groups_are_around_their_objects() {
    for name in ["hall.jdr", "bays.jdr"] {
        let table = Table::read(&plan(name)).expect("a good plan");
        let outer = table.view().object(0).expect("the outer group");
        assert_eq!(table.objects().next(), Some(outer));
        assert_eq!(table.objects().len(), table.view().len());
        for object in table.objects() {
            assert_eq!(object.groups().next(), object.parent());
            assert!(object.groups().all(|group| group.kind() == Kind::Group && group.row() < object.row()));
            assert_eq!(object.groups().last(), (object != outer).then_some(outer));
        }
    }
}

#[test]
fn a_path_has_its_colours() {
    let table = Table::read(&plan("hall.jdr")).expect("a good plan");
    let path = table.objects().find(|object| object.kind() == Kind::Path).expect("a path");
    let alpha = |which| match path.paint(which) {
        Some(Paint::Plain(Colour::Rgb { alpha, .. } | Colour::Grey { alpha, .. })) => Some(alpha),
        _ => None,
    };
    let alphas = [Which::Line, Which::Fill, Which::Text].map(alpha);
    assert_eq!(alphas, [Some(1.0), Some(1.0), None]);
}

#[test]
fn questions_are_refused() {
    let table = Table::read(&plan("hall.jdr")).expect("a good plan");
    for row in [table.view().len() as u32, 1 << 30, u32::MAX] {
        assert_eq!(table.text(row).map_err(|refused| refused.reason), Err(Reason::NoRow));
        assert_eq!(table.extent(row).map_err(|refused| refused.number()), Err(6));
        assert_eq!(table.description(row).map_err(|refused| refused.reason), Err(Reason::NoRow));
        assert_eq!(table.paint(row, Which::Fill).map_err(|refused| refused.reason), Err(Reason::NoRow));
        assert_eq!(table.view().object(row), None);
    }
    assert_eq!(table.text(0).map_err(|refused| refused.reason), Err(Reason::NoPart));
    let places = Table::read(&plan("places.jdr")).expect("a good plan");
    let lost = places.find("press").next().expect("the path with a NaN");
    assert_eq!(lost.extent().map_err(|refused| refused.reason), Err(Reason::NotANumber));
    assert_eq!(places.view().object(0).map(|outer| outer.extent()), Some(Ok(None)));
}

#[test]
fn room_that_is_short_is_said() {
    let file = plan("hall.jdr");
    let room = TableRef::room(&file).expect("a good plan");
    let (mut contents, mut bodies) = (vec![0; room.contents], vec![0; room.bodies - 1]);
    let refused = TableRef::read(&file, &mut contents, &mut bodies).expect_err("a word is missing");
    assert_eq!((refused.reason, refused.words as usize), (Reason::BodiesTooShort, room.bodies));
    let table = Table::read(&file).expect("a good plan");
    let mut short = vec![0; file.len() - 1];
    let refused = table.view().write_into(&mut short).expect_err("a byte is missing");
    assert_eq!((refused.reason, refused.offset as usize), (Reason::OutputTooShort, file.len()));
    let machine: Vec<u16> = "machine".encode_utf16().collect();
    let refused = table.view().find_into(&machine, &mut [0]).expect_err("three are needed");
    assert_eq!((refused.reason, refused.offset), (Reason::ListTooShort, 3));
}

#[test]
fn every_plan_has_one_sheet() {
    let files = common::cases("read").into_iter().filter(|case| case.groups[0].starts_with("0 "));
    for file in files.map(|case| case.data) {
        let table = Table::read(&file).expect("it was accepted");
        let sheet = table.write_sheet();
        let (contents, bodies) = (table.view().contents(), table.view().bodies());
        let counts = [(contents.len() / jdr::ROW_WORDS) as u32, bodies.len() as u32];
        let halves = counts.iter().chain(contents).flat_map(|word| (*word as u16).to_be_bytes());
        assert!(halves.chain(bodies.iter().flat_map(|word| word.to_be_bytes())).eq(sheet.iter().copied()));
        assert_eq!(Table::read_sheet(&sheet), Ok(table));
        let refused = Table::read_sheet(&sheet[1..]).expect_err("the first byte is missing");
        assert_eq!((refused.reason, refused.offset), (Reason::NoSheet, 0));
    }
}

/// The hall, with these chars for the description of its outer group, which are the last words of the bodies.
fn described(units: &[u16]) -> Table {
    let (mut contents, mut bodies) = Table::read(&plan("hall.jdr")).expect("a good plan").into_words();
    let old = bodies.split_off(bodies.len() - 4);
    assert!(old.into_iter().eq("hall".encode_utf16().map(u32::from)));
    bodies.pop();
    bodies.push(units.len() as u32);
    bodies.extend(units.iter().map(|unit| u32::from(*unit)));
    contents[3] = contents[3] + units.len() as u32 - 4;
    Table::from_words(contents, bodies).expect("any description is good")
}

#[test]
fn every_char_can_be_asked_for() {
    for unit in 0..=u16::MAX {
        let units = [unit, 0xDC00, unit];
        if unit % 97 == 0 || (0xD7F0..0xE010).contains(&unit) {
            let table = described(&units);
            assert!(table.view().find_chars(&units).map(|object| object.row()).eq([0]));
            assert_eq!(table.view().find_chars(&units[..2]).count(), 0);
            assert!(table.objects().next().is_some_and(|outer| outer.description().units().eq(units)));
        }
    }
    assert_eq!(described(&[0xD83D, 0xDD27]).find("🔧").len(), 1);
}

#[test]
fn texts_are_shown() {
    let table = Table::read(&plan("bays.jdr")).expect("a good plan");
    let shown: Vec<String> =
        table.objects().filter_map(|object| object.text()).map(|text| text.shown().to_string()).collect();
    assert_eq!(shown, ["Bay", "\\emph{Mill} 🔧"]);
    let mill = table.find("Fräse 🔧").last().and_then(|object| object.text()).expect("a text");
    assert!(mill.plain == "Mill" && mill.plain != "Mil" && mill.alternative.len() == 14);
}

/// The crate says the same as include/jdr.h: numbers, sentences, and the version.
#[test]
fn the_header_says_the_same() {
    let header = std::fs::read_to_string(common::path("include/jdr.h")).expect("the header");
    let version = env!("CARGO_PKG_VERSION");
    assert!(header.contains(&format!("#define JDR_LIBRARY_VERSION \"{version}\"\n")));
    assert!(header.contains(&format!("#define JDR_ROW_WORDS {}\n", jdr::ROW_WORDS)));
    for reason in Reason::ALL {
        // NoRow is JDR_NO_ROW
        let name = format!("{reason:?}").chars().fold(String::from("JDR"), |name, letter| {
            name + if letter.is_uppercase() { "_" } else { "" } + &letter.to_ascii_uppercase().to_string()
        });
        let value = format!("{name} = {}", reason.number());
        assert!([",", "\n", " "].iter().any(|end| header.contains(&format!("{value}{end}"))), "{value}");
        let says = format!("case {name}: return \"{}\";", reason.message());
        assert!(header.contains(&says), "{says}");
    }
    // and JDR_ACCEPTED, which is no refusal
    assert_eq!(header.matches(": return \"").count(), Reason::ALL.len() + 2);
}
