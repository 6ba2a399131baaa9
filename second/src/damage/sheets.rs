//! Damage to sheets (02, R-3).
//!
//! The functions that name what they did give bytes that are no sheet; `any` may give a sheet again.

use super::faults::word_faults;
use super::fields::Field;
use super::files::{longer, one_byte, random_bytes};
use super::tables;
use crate::random::Random;
use crate::sheet::{Edition, EDITION, WORD};
use crate::table::{Table, ROW};

/// Damaged bytes, each with what was done to them.
pub type Named = Vec<(String, Vec<u8>)>;

type Change = fn(&mut Table);

/// The bytes of a number, and those of a row.
const NUMBER: usize = EDITION.width;
const ROW_BYTES: usize = ROW * NUMBER;

/// The highest number that a sheet can spell.
pub const HIGHEST: u32 = u32::MAX >> (32 - 8 * NUMBER);

/// The bytes of any table, each number by its lowest bytes, as a writer puts them that never asks whether they fit.
pub fn careless(table: &Table) -> Vec<u8> {
    let low = |number: &u32| number.to_be_bytes()[WORD - NUMBER..].to_vec();
    let numbers = [table.rows(), table.words()];
    let numbers = numbers.iter().chain(&table.contents).flat_map(low);
    numbers.chain(table.bodies.iter().flat_map(|word| word.to_be_bytes())).collect()
}

/// The sheet with another number in one place: 0 is the row count, 1 the word count, and from 2 on come the contents.
pub fn put(sheet: &[u8], place: usize, number: u32) -> Vec<u8> {
    let mut sheet = sheet.to_vec();
    sheet[place * NUMBER..][..NUMBER].copy_from_slice(&number.to_be_bytes()[WORD - NUMBER..]);
    sheet
}

/// All that can be done to the sheet of any table but a change of a single number or word.
pub fn every(table: &Table) -> Named {
    [cuts(table), more_bytes(table), counts(table), other_runs(table), other_orders(table)].concat()
}

fn named(what: &str, sheet: Vec<u8>) -> (String, Vec<u8>) {
    (what.to_string(), sheet)
}

/// The sheet cut at every kind of place.
fn cuts(table: &Table) -> Named {
    let sheet = careless(table);
    let (contents, bodies) = (EDITION.contents_at(), EDITION.bodies_at(table.rows() as usize));
    let places = [
        ("no bytes", 0),
        ("cut in the row count", NUMBER - 1),
        ("cut before the word count", NUMBER),
        ("cut in the word count", contents - 1),
        ("cut before the contents", contents),
        ("cut in the first kind", contents + 1),
        ("cut in the first row", contents + NUMBER),
        ("cut behind the first row", contents + ROW_BYTES),
        ("cut in the last row", bodies - 1),
        ("cut before the bodies", bodies),
        ("cut in the first word", bodies + 1),
        ("cut behind the first word", bodies + WORD),
        ("a word short", sheet.len() - WORD),
        ("a byte short", sheet.len() - 1),
    ];
    // With one row, behind it is before the bodies.
    places.into_iter().map(|(what, kept)| named(what, sheet[..kept].to_vec())).collect()
}

/// Bytes behind the bodies: some, a word, a row, another sheet.
fn more_bytes(table: &Table) -> Named {
    let sheet = careless(table);
    let lengths = [1, 2, 3, WORD, ROW_BYTES];
    let zeros = lengths.map(|count| (format!("{count} bytes more"), longer(&sheet, &vec![0; count])));
    let twice = named("the sheet twice", longer(&sheet, &sheet));
    zeros.into_iter().chain([twice]).collect()
}

/// Counts that lie, each alone, and both so that the length is right.
fn counts(table: &Table) -> Named {
    let sheet = careless(table);
    let counts = [table.rows(), table.words()];
    let mut all = Named::new();
    for (place, name) in ["row count", "word count"].into_iter().enumerate() {
        let count = counts[place];
        let others = [0, 1, count - 1, count + 1, count ^ 0x100, count ^ 0x8000, HIGHEST];
        for other in others.into_iter().filter(|other| *other != count) {
            all.push((format!("{name} {other} for {count}"), put(&sheet, place, other)));
        }
    }
    let both = |what: &str, rows: u32, words: u32| named(what, put(&put(&sheet, 0, rows), 1, words));
    let [rows, words] = counts;
    // A row takes as many bytes as so many words.
    let row_words = (ROW_BYTES / WORD) as u32;
    all.push(both("counts exchanged", words, rows));
    all.push(both("both counts 0", 0, 0));
    all.push(both("both counts as high as can be", HIGHEST, HIGHEST));
    all.push(both("a row counted as words", rows - 1, words + row_words));
    all.push(both("words counted as a row", rows + 1, words - row_words));
    all.push(both("all rows counted as words", 0, words + rows * row_words));
    all
}

/// Rows and words more or fewer, with the counts as they were, and with counts that say so.
fn other_runs(table: &Table) -> Named {
    let changes: [(&str, Change); 6] = [
        ("a row more", |table| table.contents.extend_from_within(table.contents.len() - ROW..)),
        ("a row fewer", |table| table.contents.truncate(table.contents.len() - ROW)),
        ("the first row missing", |table| drop(table.contents.drain(..ROW))),
        ("a word more", |table| table.bodies.push(0)),
        ("a word fewer", |table| table.bodies.truncate(table.bodies.len() - 1)),
        ("the first word missing", |table| drop(table.bodies.drain(..1))),
    ];
    let mut all = Named::new();
    for (what, change) in changes {
        let mut other = table.clone();
        change(&mut other);
        let counted = careless(&other);
        let uncounted = put(&put(&counted, 0, table.rows()), 1, table.words());
        all.push((format!("{what}, counted"), counted));
        all.push((format!("{what}, not counted"), uncounted));
    }
    all
}

/// The same numbers and words in another order or width, where that is another run of bytes.
fn other_orders(table: &Table) -> Named {
    let sheet = careless(table);
    let (contents, bodies) = (EDITION.contents_at(), EDITION.bodies_at(table.rows() as usize));
    let (counts, rows, words) = (&sheet[..contents], &sheet[contents..bodies], &sheet[bodies..]);
    let wide = Edition { width: WORD }.sheet(table).unwrap_or_default();
    let all = [
        named("counts with the low byte first", [&reversed(counts, NUMBER), rows, words].concat()),
        named("contents with the low byte first", [counts, &reversed(rows, NUMBER), words].concat()),
        named("bodies with the low byte first", [counts, rows, &reversed(words, WORD)].concat()),
        named("the bodies before the contents", [counts, words, rows].concat()),
        named("the counts behind", [rows, words, counts].concat()),
        named("numbers as wide as words", wide.clone()),
        named("numbers as wide as words, behind bytes of 255", longer(&[255; 4], &wide)),
    ];
    all.into_iter().filter(|(_, other)| *other != sheet).collect()
}

/// The bytes of each element the other way round.
fn reversed(bytes: &[u8], width: usize) -> Vec<u8> {
    bytes.chunks(width).flat_map(|element| element.iter().rev().copied()).collect()
}

/// Other numbers in one place of the contents.
pub fn other_numbers(table: &Table, place: usize) -> Named {
    let sheet = careless(table);
    let old = table.contents[place];
    let others = [old.wrapping_add(1), old.wrapping_sub(1), old ^ 0x100, old ^ 0x8000, 0, HIGHEST];
    let others = others.map(|other| other & HIGHEST).into_iter().filter(|other| *other != old);
    let (row, word) = (place / ROW, ["kind", "parent", "start", "length"][place % ROW]);
    others
        .map(|other| (format!("row {row}: {word} {other} for {old}"), put(&sheet, 2 + place, other)))
        .collect()
}

/// Words that are no value of their field: each of its faults, and a bit above those of a narrow one.
pub fn wrong_words(table: &Table, field: &Field) -> Named {
    let width = field.kind.width();
    let too_wide = (width < WORD).then(|| field.value | 1 << (8 * width));
    let values = word_faults(field.kind, field.value).into_iter().chain(too_wide);
    let with = |value| {
        let mut table = table.clone();
        tables::put(&mut table.bodies, field, value);
        (format!("word {}: {} of {value:#x}", field.place, field.kind.name()), careless(&table))
    };
    values.map(with).collect()
}

/// Rows and words so many more that the counts on the sheet, which go no higher, are again those of the table.
pub fn wrapped(table: &Table, times: usize) -> Named {
    let more = times * (HIGHEST as usize + 1);
    let mut rows = table.clone();
    let last = rows.contents[rows.contents.len() - ROW..].to_vec();
    rows.contents.extend(last.repeat(more));
    let mut words = table.clone();
    words.bodies.resize(words.bodies.len() + more, 0);
    vec![
        (format!("{more} rows more than the count can say"), careless(&rows)),
        (format!("{more} words more than the count can say"), careless(&words)),
    ]
}

/// A damage, with the sheet before it; the fields are those of the table's bodies.
type Damage = fn(&mut Random, &[u8], &Table, &[Field]) -> Vec<u8>;

const DAMAGES: [Damage; 12] = [
    |random, sheet, _, _| sheet[..random.within(0, sheet.len())].to_vec(),
    |random, sheet, _, _| {
        let count = random.within(1, 12);
        longer(sheet, &random_bytes(random, count))
    },
    |random, sheet, table, _| {
        let place = random.below(2 + table.contents.len());
        let number = other_number(random, table);
        put(sheet, place, number)
    },
    |random, sheet, table, _| {
        let place = random.below(2);
        let number = other_number(random, table);
        put(sheet, place, number)
    },
    |random, _, table, _| {
        let place = random.below(table.contents.len());
        one_of(random, other_numbers(table, place))
    },
    |random, _, table, fields| careless(&tables::any(random, table, fields)),
    |random, _, table, fields| careless(&tables::any(random, table, fields)),
    |random, _, table, fields| {
        // Bodies of other fields alone, with the counts and the contents as they were.
        let Table { bodies, .. } = tables::any(random, table, fields);
        careless(&Table { contents: table.contents.clone(), bodies })
    },
    |random, _, table, _| one_of(random, every(table)),
    |random, sheet, _, _| one_byte(random, sheet),
    |random, sheet, _, _| {
        let kept = random.within(0, sheet.len().min(40));
        let count = random.within(0, 200);
        longer(&sheet[..kept], &random_bytes(random, count))
    },
    |random, sheet, _, _| spliced(random, sheet),
];

/// A sheet damaged in one way or another; it may be a sheet again.
pub fn any(random: &mut Random, table: &Table, fields: &[Field]) -> Vec<u8> {
    let damage = *random.pick(&DAMAGES);
    let damaged = damage(random, &careless(table), table, fields);
    if random.once_in(10) {
        one_byte(random, &damaged)
    } else {
        damaged
    }
}

fn one_of(random: &mut Random, mut all: Named) -> Vec<u8> {
    let place = random.below(all.len());
    all.swap_remove(place).1
}

/// A number near one of the table's, near an end, or random.
fn other_number(random: &mut Random, table: &Table) -> u32 {
    let near = *random.pick(&[0, 1, 5, table.rows(), table.words(), HIGHEST, HIGHEST / 2]);
    match random.below(4) {
        0 => near.wrapping_add(1),
        1 => near.wrapping_sub(1),
        2 => near,
        _ => random.word(),
    }
}

/// A row or a word, or about as many bytes, taken out or put in elsewhere.
fn spliced(random: &mut Random, sheet: &[u8]) -> Vec<u8> {
    let length = *random.pick(&[1, NUMBER, WORD, ROW_BYTES]);
    let start = random.below(sheet.len()) / length * length;
    let end = sheet.len().min(start + length);
    let (piece, rest) = (&sheet[start..end], [&sheet[..start], &sheet[end..]].concat());
    if random.once_in(3) {
        return rest;
    }
    let to = random.within(0, rest.len()) / length * length;
    [&rest[..to], piece, &rest[to..]].concat()
}
