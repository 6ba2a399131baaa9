//! Every committed case, by the calls over lent memory and by tables: the numbers, the offsets, the counts and every element lent.

mod common;

use common::{cases, hash, table, Case, FILL, FILL_BYTE};
use jdr::calls::{self, Answer};
use jdr::{Colour, Extent, Kind, Paint, TableRef, Which};

fn counts(answer: Answer) -> String {
    format!("{} {} {} {}", answer.number, answer.offset, answer.rows, answer.words)
}

/// The number of an outcome, and its offset where it is a refusal.
fn number<T>(outcome: &Result<T, jdr::Refused>) -> (u32, Option<u32>) {
    outcome.as_ref().map_or_else(|refused| (refused.number(), Some(refused.offset)), |_| (0, None))
}

/// A call that reads bytes into a table, and one that writes a table's bytes.
type Reader = fn(&[u8], &mut [u32], &mut [u32]) -> Answer;
type Writer = fn(&[u32], &[u32], &mut [u8]) -> Answer;

fn read_group(call: Reader, source: &[u8], contents_room: usize, bodies_room: usize) -> (Answer, String) {
    let (mut contents, mut bodies) = (vec![FILL; contents_room], vec![FILL; bodies_room]);
    let answer = call(source, &mut contents, &mut bodies);
    (answer, format!("{} {} {}", counts(answer), hash(contents), hash(bodies)))
}

/// The call in all rooms; its answer in the largest.
fn read_in_rooms(call: Reader, case: &Case) -> Answer {
    let (answer, group) = read_group(call, &case.data, 37452, 65536);
    let (r, w) = (answer.rows as usize, answer.words as usize);
    let mut groups = vec![group];
    if answer.number == 0 {
        let rooms = [(4 * r + 3, w), (4 * r - 1, w), (4 * r, w - 1)];
        groups.extend(rooms.map(|(contents, bodies)| read_group(call, &case.data, contents, bodies).1));
    }
    assert_eq!(groups, case.groups, "{}", case.name);
    answer
}

/// Whether the bytes written are the file with each true flag made 1: where they differ, a byte that is not 0 became 1.
fn true_made_one(written: &[u8], file: &[u8]) -> bool {
    let as_it_should = |(new, old): (&u8, &u8)| new == old || (*new == 1 && *old > 1);
    written.len() == file.len() && written.iter().zip(file).all(as_it_should)
}

#[test]
fn read() {
    for case in cases("read") {
        let file = &case.data[..];
        let answer = read_in_rooms(calls::read, &case);
        let (r, w) = (answer.rows as usize, answer.words as usize);
        let (mut contents, mut bodies) = (vec![FILL; 4 * r + 3], vec![FILL; w + 1]);
        let lent = TableRef::read(file, &mut contents, &mut bodies);
        let refused_at = (answer.number != 0).then_some(answer.offset);
        assert_eq!(number(&lent), (answer.number, refused_at), "{}", case.name);
        assert_eq!(number(&TableRef::room(file)), number(&lent), "{}", case.name);
        if let Ok(lent) = lent {
            let room = TableRef::room(file).expect("it was accepted");
            assert_eq!((lent.contents().len(), lent.bodies().len()), (room.contents, room.bodies));
            let mut copy = vec![0; lent.file_len()];
            assert_eq!(lent.write_into(&mut copy), Ok(file.len()));
            assert!(true_made_one(&copy, file), "{}", case.name);
        }
    }
}

#[test]
fn sheet_read() {
    for case in cases("sheet_read") {
        let answer = read_in_rooms(calls::sheet_read, &case);
        let (r, w) = (answer.rows as usize, answer.words as usize);
        let (mut contents, mut bodies) = (vec![FILL; 4 * r + 3], vec![FILL; w + 1]);
        let lent = TableRef::read_sheet(&case.data, &mut contents, &mut bodies);
        assert_eq!(number(&lent).0, answer.number, "{}", case.name);
        assert_eq!(number(&TableRef::sheet_room(&case.data)).0, answer.number, "{}", case.name);
        if let Ok(lent) = lent {
            let mut copy = vec![0; lent.sheet_len()];
            assert_eq!(lent.write_sheet_into(&mut copy), Ok(case.data.len()), "{}", case.name);
            assert_eq!(copy, case.data, "{}", case.name);
        }
    }
}

fn write_group(call: Writer, contents: &[u32], bodies: &[u32], room: usize) -> (Answer, String) {
    let mut file = vec![FILL_BYTE; room];
    let answer = call(contents, bodies, &mut file);
    (answer, format!("{} {}", counts(answer), hash(file.into_iter().map(u32::from))))
}

#[test]
fn check_and_write() {
    for case in cases("table") {
        let (contents, bodies, _) = table(&case.data);
        let (answer, group) = write_group(calls::write, &contents, &bodies, 65536);
        let mut groups = vec![counts(calls::check(&contents, &bodies)), group];
        if answer.number == 0 {
            let length = answer.offset as usize;
            groups.extend(
                [length, length - 1].map(|room| write_group(calls::write, &contents, &bodies, room).1),
            );
        }
        assert_eq!(groups, case.groups, "{}", case.name);
        assert_eq!(number(&TableRef::check(&contents, &bodies)).0, answer.number, "{}", case.name);
    }
}

#[test]
fn sheet_write() {
    for case in cases("sheet_write") {
        let (contents, bodies, _) = table(&case.data);
        let (answer, group) = write_group(calls::sheet_write, &contents, &bodies, 340_000);
        let mut groups = vec![group];
        if answer.number == 0 {
            let length = answer.offset as usize;
            let rooms = [length, length - 1];
            groups.extend(rooms.map(|room| write_group(calls::sheet_write, &contents, &bodies, room).1));
        }
        assert_eq!(groups, case.groups, "{}", case.name);
    }
}

#[test]
fn descriptions() {
    for case in cases("description") {
        let (contents, bodies, rows) = table(&case.data);
        let good = TableRef::check(&contents, &bodies).ok();
        let group = |row: &u32| {
            let given = calls::description(&contents, &bodies, *row);
            if let Some(good) = good {
                let asked = good.description(*row);
                assert_eq!(number(&asked).0, given.number, "{}", case.name);
                if let Ok(chars) = asked {
                    let place = &bodies[given.start as usize..][..given.length as usize];
                    assert!(chars.units().map(u32::from).eq(place.iter().copied()), "{}", case.name);
                }
            }
            format!("{row}: {} {} {}", given.number, given.start, given.length)
        };
        assert_eq!(rows.iter().map(group).collect::<Vec<_>>(), case.groups, "{}", case.name);
    }
}

fn list_group(contents: &[u32], bodies: &[u32], label: &[u16], room: usize) -> (Answer, String) {
    let mut entries = vec![FILL; room];
    let answer = calls::list(contents, bodies, label, &mut entries);
    (answer, format!("{} {}", counts(answer), hash(entries)))
}

fn question_group(contents: &[u32], bodies: &[u32], row: u32) -> String {
    let paints = [0, 1, 2, 3].map(|which| calls::paint(contents, bodies, row, which));
    let text = calls::text(contents, bodies, row);
    let colour = |colour: calls::ColourAnswer| {
        std::iter::once(colour.kind).chain(colour.components.map(f32::to_bits)).collect::<Vec<u32>>()
    };
    let paint_words = |p: &calls::PaintAnswer| {
        [vec![p.number, p.form, p.place], colour(p.first), colour(p.second)].concat()
    };
    let text_words =
        [text.number, text.alternative_start, text.alternative_length, text.text_start, text.text_length];
    let [a, b, c, d] = paints.map(|paint| paint.number);
    let words = paints.iter().flat_map(paint_words).chain(text_words);
    format!("{row}: {a} {b} {c} {d} {} {}", text.number, hash(words))
}

#[test]
fn list_and_questions() {
    for case in cases("list") {
        let (contents, bodies, label) = table(&case.data);
        let label: Vec<u16> = label.into_iter().map(|word| word as u16).collect();
        let (answer, group) = list_group(&contents, &bodies, &label, 9400);
        let mut groups = vec![group];
        let mut last = 1;
        if answer.number == 0 {
            let found = answer.rows as usize;
            let rooms = [Some(found), found.checked_sub(1)].into_iter().flatten();
            groups.extend(rooms.map(|room| list_group(&contents, &bodies, &label, room).1));
            last = (contents.len() / 4).min(40) as u32;
        }
        groups.extend((0..=last).map(|row| question_group(&contents, &bodies, row)));
        assert_eq!(groups, case.groups, "{}", case.name);
        if let Ok(good) = TableRef::check(&contents, &bodies) {
            listed(good, &label, &case.name);
        }
    }
}

/// The table's iterators and questions give what its calls do.
fn listed(good: TableRef, label: &[u16], name: &str) {
    let mut entries = vec![FILL; good.len()];
    let answer = calls::list(good.contents(), good.bodies(), label, &mut entries);
    let mut room = vec![0; good.len()];
    let found = good.find_into(label, &mut room).expect("room for every row");
    assert_eq!(found.len(), answer.rows as usize, "{name}");
    assert!(found.map(|object| object.row()).eq(entries[..answer.rows as usize].iter().copied()), "{name}");
    for object in good.objects().take(40) {
        let own: Vec<u16> = object.description().units().collect();
        assert_eq!(own == label, entries[..answer.rows as usize].contains(&object.row()), "{name}");
        let text = calls::text(good.contents(), good.bodies(), object.row());
        assert_eq!(number(&good.text(object.row())).0, text.number, "{name}");
        assert_eq!(object.text().is_some(), matches!(object.kind(), Kind::Text | Kind::TextPath));
        for which in [Which::Line, Which::Fill, Which::Text] {
            let paint = calls::paint(good.contents(), good.bodies(), object.row(), which as u32);
            assert_eq!(number(&good.paint(object.row(), which)).0, paint.number, "{name}");
            assert_eq!(object.paint(which).is_some(), paint.number == 0, "{name}");
            if let Some(given) = object.paint(which) {
                assert_eq!(as_c_has_it(given), paint, "{name}");
            }
        }
    }
}

/// The struct of a paint.
fn as_c_has_it(paint: Paint) -> calls::PaintAnswer {
    let (form, place, first, second) = match paint {
        Paint::Plain(colour) => (0, 0, colour, Colour::Transparent),
        Paint::Linear { from, to, direction } => (1, direction, from, to),
        Paint::Radial { from, to, location } => (2, location, from, to),
    };
    let colour = |colour| {
        let (kind, components) = match colour {
            Colour::Transparent => (0, [0.0; 5]),
            Colour::Rgb { red, green, blue, alpha } => (1, [red, green, blue, alpha, 0.0]),
            Colour::Cmyk { cyan, magenta, yellow, black, alpha } => {
                (2, [cyan, magenta, yellow, black, alpha])
            }
            Colour::Grey { grey, alpha } => (3, [grey, alpha, 0.0, 0.0, 0.0]),
            Colour::Hsb { hue, saturation, brightness, alpha } => {
                (4, [hue, saturation, brightness, alpha, 0.0])
            }
        };
        calls::ColourAnswer { kind, components }
    };
    calls::PaintAnswer { number: 0, form, place, first: colour(first), second: colour(second) }
}

#[test]
fn boxes() {
    let bits = |sides: [f64; 4]| sides.map(|side| format!("{:016x}", side.to_bits())).join(" ");
    for case in cases("box") {
        let (contents, bodies, rows) = table(&case.data);
        let good = TableRef::check(&contents, &bodies).ok();
        let group = |row: &u32| {
            let given = calls::extent(&contents, &bodies, *row);
            let sides = [given.left, given.bottom, given.right, given.top];
            if let Some(good) = good {
                let asked = good.extent(*row);
                assert_eq!(number(&asked).0, given.number, "{}", case.name);
                if let Ok(Extent { left, bottom, right, top }) = asked {
                    assert_eq!(bits([left, bottom, right, top]), bits(sides), "{}", case.name);
                }
            }
            format!("{row}: {} {}", given.number, bits(sides))
        };
        assert_eq!(rows.iter().map(group).collect::<Vec<_>>(), case.groups, "{}", case.name);
    }
}
