//! Cases of the check and write calls.

use super::{hash, table_data, Case, FILL_BYTE};
use crate::answer::Answer;
use crate::check::{self, Good};
use crate::damage::faults::word_faults;
use crate::damage::fields::{at_outline, of_bodies, Field};
use crate::damage::tables::{deep, exchange_bodies, put};
use crate::generate::special::{
    self, empty_to_depth, nested, of_depth, padded, plain_bitmap, plain_drawing, sampler, with_chains,
    with_text_path,
};
use crate::generate::{self, chars};
use crate::layout::Kind;
use crate::model::{Drawing, Object};
use crate::plans;
use crate::random::Random;
use crate::read;
use crate::table::{self, Table, ROW};
use crate::version::{Version, LONGEST_FILE};
use crate::write;

type Tables = Vec<(String, Table)>;
type Change = fn(u32) -> u32;
type Wanted = fn(Kind) -> bool;

pub fn cases(seed: u64) -> Vec<Case> {
    let mut tables = Tables::new();
    good(&mut tables, seed);
    limits(&mut tables, seed);
    other_lengths(&mut tables, seed);
    for version in Version::ALL {
        broken_rows(&mut tables, version, seed);
        let drawing = generate::drawing(seed + 6, version, 1_500);
        broken_fields(&mut tables, &drawing, &of_bodies(&drawing), seed + 7);
        other_minor(&mut tables, &drawing);
        text_paths(&mut tables, version, seed);
        empty_groups(&mut tables, version);
    }
    exchanged(&mut tables);
    ended_parent(&mut tables);
    noise(&mut tables, seed);
    tables.into_iter().map(case).collect()
}

fn case((name, table): (String, Table)) -> Case {
    Case { name, data: table_data(&table, []), groups: groups(&table) }
}

/// The line's groups: the check; the writer with a large room, then an exact one, then one short.
fn groups(table: &Table) -> Vec<String> {
    let good = check::good(&table.contents, &table.bodies);
    let Answer { number, offset, rows, words } = check::call(good.as_ref());
    let mut groups = vec![format!("{number} {offset} {rows} {words}")];
    groups.extend(writer_groups(write::call, good.as_ref(), LONGEST_FILE + 1));
    groups
}

/// A call that takes a table and writes bytes.
type Writer = fn(Option<&Good>, &mut [u8]) -> Answer;

/// The groups of a writer: with this large room, then an exact one, then one short.
pub fn writer_groups(call: Writer, good: Option<&Good>, large: usize) -> Vec<String> {
    let (answer, first) = written(call, good, large);
    let mut groups = vec![first];
    if answer.number == 0 {
        let length = answer.offset as usize;
        groups.push(written(call, good, length).1);
        groups.push(written(call, good, length - 1).1);
    }
    groups
}

/// One call of the writer with an output of so many bytes.
fn written(call: Writer, good: Option<&Good>, room: usize) -> (Answer, String) {
    let mut output = vec![FILL_BYTE; room];
    let answer = call(good, &mut output);
    let Answer { number, offset, rows, words } = answer;
    let hash = hash(output.into_iter().map(u32::from));
    (answer, format!("{number} {offset} {rows} {words} {hash:08x}"))
}

fn add(tables: &mut Tables, version: Version, name: &str, table: Table) {
    tables.push((format!("1.{}: {name}", version.minor()), table));
}

/// The table of plan A.
pub fn plan_a() -> Table {
    read::drawing(&plans::plan_a()).map_or(Table::default(), |drawing| table::of(&drawing))
}

fn good(tables: &mut Tables, seed: u64) {
    tables.push(("plan A".into(), plan_a()));
    for version in Version::ALL {
        add(tables, version, "every kind of part", table::of(&sampler(seed, version)));
        for more in [1, 2] {
            let drawing = generate::drawing(seed + more, version, 700);
            add(tables, version, "some drawing", table::of(&drawing));
        }
    }
}

fn limits(tables: &mut Tables, seed: u64) {
    let [v0, v1, .., v4, v5] = Version::ALL;
    let bitmap = || Object::Bitmap(plain_bitmap(1));
    for length in [LONGEST_FILE, LONGEST_FILE + 1] {
        let drawing = padded(plain_drawing(v5, vec![bitmap()]), length);
        add(tables, v5, &format!("its file has {length} bytes"), table::of(&drawing));
    }
    let most_rows = plain_drawing(v0, special::empty_groups(9_358));
    add(tables, v0, "9,359 rows, the most there can be", table::of(&most_rows));
    for depth in [16, 17] {
        for version in [v0, v4, v5] {
            let drawing = of_depth(version, depth, &chars("deep"));
            add(tables, version, &format!("depth {depth}"), table::of(&drawing));
        }
    }
    tables.push(("1.2: 1,000 groups, each inside the other".into(), deep(1_000)));
    let chains = [(v1, [4, 4, 4]), (v1, [5, 0, 0]), (v4, [4, 4, 4]), (v4, [0, 5, 0]), (v5, [4, 4, 4])];
    for (version, lengths) in chains {
        let drawing = with_chains(seed, version, lengths);
        add(tables, version, &format!("chains of {lengths:?} markers"), table::of(&drawing));
    }
}

/// Runs that are empty, not whole, or longer or shorter than those used.
fn other_lengths(tables: &mut Tables, seed: u64) {
    let [v0, .., v5] = Version::ALL;
    tables.push(("empty contents and bodies".into(), Table::default()));
    for (version, table) in [(v0, plan_a()), (v5, table::of(&generate::drawing(seed, v5, 500)))] {
        let (rows, words) = (table.contents.len(), table.bodies.len());
        let lengths = [
            ("empty contents", 0, words),
            ("empty bodies", rows, 0),
            ("a contents word less", rows - 1, words),
            ("a contents word more", rows + 1, words),
            ("a row less", rows - ROW, words),
            ("a row more", rows + ROW, words),
            ("a word less", rows, words - 1),
            ("a word more", rows, words + 1),
        ];
        for (name, rows, words) in lengths {
            let mut table = table.clone();
            table.contents.resize(rows, 0);
            table.bodies.resize(words, 0);
            add(tables, version, name, table);
        }
    }
}

/// A drawing of several groups, one ended before another opens.
fn some_groups(version: Version, seed: u64) -> Drawing {
    let rows = |drawing: &Drawing| table::of(drawing).contents;
    let groups = |drawing: &Drawing| rows(drawing).chunks(ROW).filter(|row| row[0] == 1).count();
    let mut tries = (seed..).map(|seed| generate::drawing(seed, version, 600));
    tries.find(|drawing| groups(drawing) >= 3).unwrap_or_else(|| generate::drawing(seed, version, 600))
}

/// Each word of a row wrong.
fn broken_rows(tables: &mut Tables, version: Version, seed: u64) {
    let table = table::of(&some_groups(version, seed + 5));
    let mut random = Random::new(seed + u64::from(version.minor()));
    let changes: [(&str, usize, Change); 7] = [
        ("another kind", 0, |kind| kind % 5 + 1),
        ("kind 0 or 6", 0, |kind| 6 * (kind % 2)),
        ("another parent", 1, |parent| parent + 1),
        ("parent 4,294,967,295", 1, |_| u32::MAX),
        ("start one off", 2, |start| start + 1),
        ("length one off", 3, |length| length - 1),
        ("a start that would wrap", 2, |start| start.wrapping_sub(0x8000_0000)),
    ];
    for (name, word, change) in changes {
        let mut table = table.clone();
        let row = random.below(table.rows() as usize);
        let place = row * ROW + word;
        table.contents[place] = change(table.contents[place]);
        add(tables, version, &format!("{name} in row {row}"), table);
    }
}

/// One word of the bodies wrong, for each kind of field among these.
fn broken_fields(tables: &mut Tables, drawing: &Drawing, fields: &[Field], seed: u64) {
    let version = drawing.version;
    let table = table::of(drawing);
    let mut random = Random::new(seed + u64::from(version.minor()));
    let kinds: [(&str, Wanted); 11] = [
        ("flag", |kind| matches!(kind, Kind::Flag { .. })),
        ("flow flag", |kind| kind == Kind::FlowFlag),
        ("byte", |kind| matches!(kind, Kind::Byte { .. })),
        ("marker id", |kind| matches!(kind, Kind::MarkerId { .. })),
        ("count", |kind| matches!(kind, Kind::Count { .. })),
        ("group's count", |kind| kind == Kind::Members),
        ("letter", |kind| matches!(kind, Kind::Letter { .. })),
        ("component or hue", |kind| kind == Kind::Component || kind == Kind::Hue),
        ("start", |kind| kind == Kind::Joined),
        ("narrow", |kind| kind.width() <= 2),
        ("free", |kind| kind == Kind::Float || kind == Kind::Double),
    ];
    for (name, wanted) in kinds {
        let such: Vec<&Field> = fields.iter().filter(|field| wanted(field.kind)).collect();
        if !such.is_empty() {
            let field = random.pick(&such);
            let value = other_value(&mut random, name, field);
            let mut table = table.clone();
            put(&mut table.bodies, field, value);
            let (place, old) = (field.place, field.value);
            add(tables, version, &format!("{name} at word {place}: {value} for {old}"), table);
        }
    }
}

/// The same words with the number of the next version.
fn other_minor(tables: &mut Tables, drawing: &Drawing) {
    let mut table = table::of(drawing);
    table.bodies[0] += 1;
    add(tables, drawing.version, &format!("as minor version {}", table.bodies[0]), table);
}

/// Texts along paths, which no table has below 1.5.
fn text_paths(tables: &mut Tables, version: Version, seed: u64) {
    for (name, latex) in [("a text along a path", false), ("a text along a path, with LaTeX fields", true)] {
        let drawing = with_text_path(seed + 9, version, latex);
        add(tables, version, name, table::of(&drawing));
        if version.has_text_paths() {
            broken_text_path(tables, &drawing, seed);
        }
    }
}

/// A text along a path as another kind and in the version before; its text and its outline broken.
fn broken_text_path(tables: &mut Tables, drawing: &Drawing, seed: u64) {
    let version = drawing.version;
    let table = table::of(drawing);
    for kind in [2, 3, 4] {
        let mut table = table.clone();
        table.contents[ROW] = kind;
        add(tables, version, &format!("a text along a path as kind {kind}"), table);
    }
    let mut before = table.clone();
    before.bodies[0] -= 1;
    add(tables, version, &format!("a text along a path as minor version {}", before.bodies[0]), before);
    let fields = of_bodies(drawing);
    let (text, outline) = at_outline(&fields);
    broken_fields(tables, drawing, text, seed + 9);
    broken_fields(tables, drawing, outline, seed + 9);
    let (letter, n) = (&outline[0], &outline[1]);
    let wrong = [
        ("neither open nor closed", letter, u64::from(b'X')),
        ("no segment", n, 0),
        ("a segment more", n, n.value + 1),
    ];
    for (name, field, value) in wrong {
        let mut table = table.clone();
        put(&mut table.bodies, field, value);
        add(tables, version, name, table);
    }
}

/// Empty groups, the outer one alone, at every depth and one too deep; and a table of some that is broken.
fn empty_groups(tables: &mut Tables, version: Version) {
    let to_depth = |depth| table::of(&empty_to_depth(version, depth, &chars("bay")));
    add(tables, version, "an empty outer group", to_depth(1));
    add(tables, version, "empty groups to depth 16", to_depth(16));
    add(tables, version, "an empty group at depth 17", to_depth(17));
    // Rows: the outer group, an empty one, one that holds the three empty ones after it, an empty one.
    let table = to_depth(3);
    let count_of = |row: usize| table.contents[row * ROW + 2] as usize;
    for (name, row, n) in [("holds 1", 1, 1), ("holds -1", 1, u32::MAX), ("has objects but holds 0", 2, 0)] {
        let mut table = table.clone();
        table.bodies[count_of(row)] = n;
        add(tables, version, &format!("a group {name}"), table);
    }
    let mut inside = table.clone();
    inside.contents[2 * ROW + 1] = 1;
    add(tables, version, "an object inside an empty group", inside.clone());
    inside.bodies[count_of(1)] += 1;
    inside.bodies[count_of(0)] -= 1;
    add(tables, version, "an object inside a group whose body comes first", inside);
    let mut exchanged = table.clone();
    exchange_bodies(&mut exchanged, 3, 4);
    add(tables, version, "bodies of empty groups exchanged", exchanged);
}

/// A fault of the field; a count one off, up or down; for a narrow field a bit above its own; a free one changed.
fn other_value(random: &mut Random, name: &str, field: &Field) -> u64 {
    let faults = word_faults(field.kind, field.value);
    match name {
        "count" | "group's count" if field.value == 0 || random.flag() => field.value + 1,
        "count" | "group's count" => field.value - 1,
        "narrow" => field.value | 1 << (8 * field.kind.width()),
        _ if faults.is_empty() => field.value ^ 1,
        _ => *random.pick(&faults),
    }
}

/// Two equal bodies exchanged with their starts, and two that differ.
fn exchanged(tables: &mut Tables) {
    for version in [Version::ALL[0], Version::ALL[4]] {
        let mut third = plain_bitmap(1);
        third.name = chars("b");
        let objects = [plain_bitmap(1), plain_bitmap(1), third].map(Object::Bitmap);
        let table = table::of(&plain_drawing(version, objects.to_vec()));
        for (name, other) in [("equal bodies exchanged", 2), ("other bodies exchanged", 3)] {
            let mut table = table.clone();
            exchange_bodies(&mut table, 1, other);
            add(tables, version, name, table);
        }
    }
}

/// A bitmap after a group that has ended, its parent taken as the last group opened.
fn ended_parent(tables: &mut Tables) {
    for version in [Version::ALL[1], Version::ALL[3]] {
        let inner = nested(Object::Bitmap(plain_bitmap(1)), 1);
        let drawing = plain_drawing(version, vec![inner, Object::Bitmap(plain_bitmap(1))]);
        let mut table = table::of(&drawing);
        table.contents[3 * ROW + 1] = 1;
        add(tables, version, "the parent is a group that has ended", table);
    }
}

fn noise(tables: &mut Tables, seed: u64) {
    let mut random = Random::new(seed + 8);
    for length in [4, 40, 400] {
        let contents = (0..length).map(|_| random.below(6) as u32).collect();
        let bodies = (0..length).map(|_| random.below(4) as u32).collect();
        tables.push((format!("{length} small random words"), Table { contents, bodies }));
    }
    let contents = (0..8).map(|_| random.word()).collect();
    let bodies = (0..20).map(|_| random.word()).collect();
    tables.push(("random words".into(), Table { contents, bodies }));
}
