//! Files that are refused: each number from 2 to 13 but 5 in every version and every sort of field.

use crate::damage::faults::{faults, Fault};
use crate::damage::fields::{at_outline, of_file, Field};
use crate::damage::files::{longer, put};
use crate::generate::chars;
use crate::generate::special::{empty_to_depth, sampler, with_text_path};
use crate::layout::Kind;
use crate::model::Drawing;
use crate::random::Random;
use crate::version::{Version, DEEPEST_GROUP};
use crate::write;

type Files = Vec<(String, Vec<u8>)>;

/// A good file and where its fields stand.
struct Whole {
    version: Version,
    file: Vec<u8>,
    fields: Vec<Field>,
}

impl Whole {
    fn new(seed: u64, version: Version) -> Whole {
        Whole::of(&sampler(seed, version))
    }

    fn of(drawing: &Drawing) -> Whole {
        Whole { version: drawing.version, file: write::file(drawing), fields: of_file(drawing) }
    }

    fn name(&self, what: &str) -> String {
        format!("1.{}: {what}", self.version.minor())
    }

    /// The file with this value in this field.
    fn add_put(&self, files: &mut Files, what: &str, field: &Field, value: u64) {
        files.push((self.name(what), put(&self.file, field, value)));
    }
}

pub fn add(files: &mut Files, seed: u64) {
    for version in Version::ALL {
        let whole = Whole::new(seed + 10, version);
        let mut random = Random::new(seed + u64::from(version.minor()));
        cuts(files, &whole, &mut random);
        single_faults(files, &whole, &mut random);
        long_count(files, &whole, &mut random);
        trailing(files, &whole);
    }
    text_paths(files, seed);
    empty_groups(files, seed);
    named(files, seed);
    orders(files, seed);
}

/// 2 in a field of each sort: before it or in its middle.
fn cuts(files: &mut Files, whole: &Whole, random: &mut Random) {
    for sort in sorts(whole.fields.iter().map(|field| sort_of(field.kind))) {
        let such: Vec<&Field> = whole.fields.iter().filter(|field| sort_of(field.kind) == sort).collect();
        let field = random.pick(&such);
        cut(files, whole, field, random.below(field.kind.width()));
    }
}

/// So many bytes of the field are left.
fn cut(files: &mut Files, whole: &Whole, field: &Field, left: usize) {
    let kept = field.place + left;
    let what = format!("2: cut to {kept} bytes, {} at {}", field.kind.name(), field.place);
    files.push((whole.name(&what), whole.file[..kept].to_vec()));
}

/// How many faults of each sort of field and each number are put into every version.
const PLACES: usize = 2;

/// Each number from 3 to 12 in each sort of field of this version.
fn single_faults(files: &mut Files, whole: &Whole, random: &mut Random) {
    let all = all_faults(whole);
    let case_of = |(field, fault): &(Field, Fault)| (sort_of(field.kind), fault.number);
    for case in sorts(all.iter().map(case_of)) {
        let mut such: Vec<_> = all.iter().filter(|pair| case_of(pair) == case).collect();
        for _ in 0..PLACES.min(such.len()) {
            let (field, fault) = such.swap_remove(random.below(such.len()));
            let (number, kind) = (fault.number, field.kind.name());
            let what = format!("{number}: {kind} of {:#x} at {}", fault.value, field.place);
            whole.add_put(files, &what, field, fault.value);
        }
    }
}

/// Fields of one sort are at fault in the same ways, whatever the depth of an object inside.
fn sort_of(kind: Kind) -> Kind {
    match kind {
        Kind::ObjectId { depth: 2..=DEEPEST_GROUP, allowed } => Kind::ObjectId { depth: 2, allowed },
        other => other,
    }
}

/// Each sort once, in the order in which they come first.
fn sorts<T: PartialEq>(all: impl Iterator<Item = T>) -> Vec<T> {
    let mut sorts = Vec::new();
    for sort in all {
        if !sorts.contains(&sort) {
            sorts.push(sort);
        }
    }
    sorts
}

/// All faults that can be put into the file, in file order.
fn all_faults(whole: &Whole) -> Vec<(Field, Fault)> {
    let of_field = |field: &Field| {
        let field = *field;
        faults(field.kind, field.value).into_iter().map(move |fault| (field, fault))
    };
    whole.fields.iter().flat_map(of_field).collect()
}

/// A count that goes far past the file's end: the next element that is no such element decides.
fn long_count(files: &mut Files, whole: &Whole, random: &mut Random) {
    let is_count = |field: &&Field| matches!(field.kind, Kind::Count { .. } | Kind::Members);
    let counts: Vec<&Field> = whole.fields.iter().filter(is_count).collect();
    let field = *random.pick(&counts);
    put_long_count(files, whole, field);
}

fn put_long_count(files: &mut Files, whole: &Whole, field: &Field) {
    let what = format!("a count of 2,147,483,647 at {}", field.place);
    whole.add_put(files, &what, field, 0x7FFF_FFFF);
}

fn trailing(files: &mut Files, whole: &Whole) {
    let count = usize::from(whole.version.minor()) + 1;
    let what = format!("13: {count} bytes after the outer group");
    files.push((whole.name(&what), longer(&whole.file, &vec![0; count])));
}

/// Texts along paths: below 1.5 the id char is at fault, and from then on each sort of field, in the text and in the outline.
fn text_paths(files: &mut Files, seed: u64) {
    for version in Version::ALL {
        let mut whole = Whole::of(&with_text_path(seed + 40, version, true));
        if !version.has_text_paths() {
            files.push((whole.name("7: X below 1.5"), whole.file));
            continue;
        }
        let mut random = Random::new(seed + 40);
        let (before, outline) = at_outline(&whole.fields);
        let is_before = |field: &&Field| !matches!(field.kind, Kind::ObjectId { depth: 2, .. });
        let text = before.iter().skip_while(is_before).copied().collect();
        for part in [text, outline.to_vec()] {
            whole.fields = part;
            cuts(files, &whole, &mut random);
            single_faults(files, &whole, &mut random);
        }
        // What is left is the outline: its char, n, the start point, the segments.
        for field in &whole.fields[..5] {
            cut(files, &whole, field, field.kind.width() - 1);
        }
        put_long_count(files, &whole, &whole.fields[1]);
    }
}

/// Empty groups, the outer one alone and some inside it: each field of theirs cut and at fault; a count of 0 where objects follow, and
/// of 1 where none does.
fn empty_groups(files: &mut Files, seed: u64) {
    for (version, depth) in Version::ALL.into_iter().flat_map(|version| [(version, 1), (version, 3)]) {
        let mut whole = Whole::of(&empty_to_depth(version, depth, &chars("bay")));
        let mut random = Random::new(seed + 50);
        trailing(files, &whole);
        let is_own =
            |field: &Field| matches!(field.kind, Kind::Members | Kind::FlowFlag | Kind::Count { .. });
        whole.fields.retain(is_own);
        cuts(files, &whole, &mut random);
        single_faults(files, &whole, &mut random);
        for field in whole.fields.iter().filter(|field| field.kind == Kind::Members).take(3) {
            let (old, new) = (field.value, u64::from(field.value == 0));
            let what = format!("a group's count of {new} for {old} at {}", field.place);
            whole.add_put(files, &what, field, new);
        }
    }
}

/// The faults that 01 names: settings 3 in 1.3, hue 360 in a paint, and its neighbour that is good.
fn named(files: &mut Files, seed: u64) {
    let [.., v3, v4, _] = Version::ALL;
    let third = Whole::new(seed + 20, v3);
    third.add_put(files, "settings 3", &third.fields[3], 3);
    let fourth = Whole::new(seed + 20, v4);
    let hues = fourth.fields.iter().filter(|field| field.kind == Kind::Hue);
    for hue in hues.take(2) {
        fourth.add_put(files, "hue 360", hue, u64::from(360.0f32.to_bits()));
        fourth.add_put(files, "the last hue below 360", hue, u64::from(360.0f32.to_bits() - 1));
    }
}

/// Two faults at once, and faults whose order 01 and the readings decide.
fn orders(files: &mut Files, seed: u64) {
    let [v0, v1, v2, ..] = Version::ALL;
    let whole = Whole::new(seed + 30, v0);
    files.push(("JX and a cut: 2 at 0".into(), vec![0, b'J', 0, b'X', 0]));
    whole.add_put(files, "3: JRD", &whole.fields[0], 0x004A_0052_0044);
    let wrong = put(&whole.file, &whole.fields[2], u64::MAX);
    files.push(("a wrong version, cut: 2 at 10".into(), wrong[..13].to_vec()));
    let settings = put(&whole.file, &whole.fields[3], 7);
    files.push(("settings 7, which is true, and then a cut: 2 at 17".into(), settings[..17].to_vec()));
    for version in [v0, v1, v2] {
        joins(files, &Whole::new(seed + 31, version));
    }
}

/// x and y of one start: x unjoined with y cut, y unjoined alone.
fn joins(files: &mut Files, whole: &Whole) {
    let Some(place) = whole.fields.iter().position(|field| field.kind == Kind::Joined) else {
        return;
    };
    let (x, y) = (whole.fields[place], whole.fields[place + 1]);
    let broken_x = put(&whole.file, &x, x.value ^ 1);
    files.push((whole.name("12: x unjoined, y cut"), broken_x[..y.place + 3].to_vec()));
    whole.add_put(files, "12: y unjoined", &y, y.value ^ 1 << 63);
}
