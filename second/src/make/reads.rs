//! Cases of the read call.

use super::{broken, hash, Case, FILL};
use crate::answer::Answer;
use crate::damage::fields::of_file;
use crate::damage::files;
use crate::generate::edges::{at_ends, every_pairing, every_settings};
use crate::generate::special::{
    self, empty_to_depth, nan_sampler, of_depth, padded, plain_bitmap, plain_drawing, sampler, with_chains,
    with_text_path,
};
use crate::generate::{self, chars};
use crate::layout::Kind;
use crate::model::{Drawing, Object};
use crate::plans;
use crate::random::Random;
use crate::table::read_call;
use crate::version::{Version, LONGEST_FILE};
use crate::write;

type Files = Vec<(String, Vec<u8>)>;

pub fn cases(seed: u64) -> Vec<Case> {
    let mut files = Files::new();
    marked(&mut files);
    run_only(&mut files, seed);
    limits(&mut files, seed);
    good(&mut files, seed);
    empty_groups(&mut files, seed);
    true_flags(&mut files, seed);
    broken::add(&mut files, seed);
    noise(&mut files, seed);
    files.into_iter().map(|(name, data)| Case { name, groups: groups(read_call, &data), data }).collect()
}

/// A call that takes bytes and fills a table.
type Reader = fn(&[u8], &mut [u32], &mut [u32]) -> Answer;

/// The line's groups: with large rooms, then exact ones, then one row short, then one word short.
pub fn groups(call: Reader, bytes: &[u8]) -> Vec<String> {
    let (answer, first) = group(call, bytes, 37_452, 65_536);
    let mut groups = vec![first];
    if answer.number == 0 {
        let (contents, bodies) = (4 * answer.rows as usize, answer.words as usize);
        let rooms = [(contents + 3, bodies), (contents - 1, bodies), (contents, bodies - 1)];
        groups.extend(rooms.map(|(contents, bodies)| group(call, bytes, contents, bodies).1));
    }
    groups
}

/// One call with rooms of so many words.
fn group(call: Reader, bytes: &[u8], contents: usize, bodies: usize) -> (Answer, String) {
    let mut contents = vec![FILL; contents];
    let mut bodies = vec![FILL; bodies];
    let answer = call(bytes, &mut contents, &mut bodies);
    let Answer { number, offset, rows, words } = answer;
    let (of_contents, of_bodies) = (hash(contents), hash(bodies));
    (answer, format!("{number} {offset} {rows} {words} {of_contents:08x} {of_bodies:08x}"))
}

fn add(files: &mut Files, name: &str, version: Version, drawing: &Drawing) {
    files.push((format!("1.{}: {name}", version.minor()), write::file(drawing)));
}

fn marked(files: &mut Files) {
    for plan in plans::marked() {
        files.push((plan.name.to_string(), plan.file));
    }
    files.push(("plan A and 9 more bytes".into(), files::longer(&plans::plan_a(), &[0; 9])));
}

/// 01's cases that are run only: depth 16 and 17, 4 and 5 markers (hue 360 and settings 3 are faults).
fn run_only(files: &mut Files, seed: u64) {
    let [v0, v1, v2, v3, v4, v5] = Version::ALL;
    for (version, depth) in [(v0, 16), (v0, 17), (v2, 17), (v4, 16), (v4, 17), (v5, 16), (v5, 17)] {
        let drawing = of_depth(version, depth, &chars("deep"));
        add(files, &format!("depth {depth}"), version, &drawing);
    }
    for version in [v1, v4, v5] {
        add(files, "4 markers in each chain", version, &with_chains(seed, version, [4, 4, 4]));
    }
    let chains = [(v1, [5, 0, 0]), (v2, [4, 5, 1]), (v3, [0, 0, 5]), (v4, [4, 4, 5]), (v5, [0, 5, 4])];
    for (version, lengths) in chains {
        let drawing = with_chains(seed, version, lengths);
        add(files, &format!("chains of {lengths:?} markers"), version, &drawing);
    }
}

fn limits(files: &mut Files, seed: u64) {
    let [v0, .., v5] = Version::ALL;
    let small = plain_drawing(v0, vec![Object::Bitmap(plain_bitmap(1))]);
    let large = generate::drawing(seed, v5, 64_000);
    add(files, "exactly 65,535 bytes, mostly a name", v0, &padded(small.clone(), LONGEST_FILE));
    add(files, "exactly 65,535 bytes, many objects", v5, &padded(large, LONGEST_FILE));
    add(files, "65,536 bytes of a good layout", v0, &padded(small, LONGEST_FILE + 1));
    add(files, "9,359 rows, the most there can be", v0, &plain_drawing(v0, special::empty_groups(9_358)));
    let mut filled = plans::plan_a();
    filled.resize(LONGEST_FILE + 1, 0);
    files.push(("65,536 bytes, plan A and zeros".into(), filled));
    files.push(("70,000 zeros".into(), vec![0; 70_000]));
}

/// Every kind of part in every version, both ends of every range, and drawings of all sorts.
fn good(files: &mut Files, seed: u64) {
    for version in Version::ALL {
        add(files, "every kind of part", version, &sampler(seed, version));
        add(files, "every gradient and length of chain", version, &every_pairing(seed, version));
        add(files, "every range at its low end", version, &at_ends(seed, version, false));
        add(files, "every range at its high end", version, &at_ends(seed, version, true));
        add(files, "NaN payloads in every free float and double", version, &nan_sampler(seed, version));
        for drawing in every_settings(seed, version) {
            add(files, "every kind of settings", version, &drawing);
        }
        let drawing = generate::drawing(seed + 1, version, 900);
        add(files, "some drawing", version, &drawing);
        if version.has_text_paths() {
            let [without, with] = [false, true].map(|latex| with_text_path(seed, version, latex));
            add(files, "a text along a path", version, &without);
            add(files, "a text along a path, with LaTeX fields", version, &with);
        }
    }
}

/// Empty groups: the outer one alone, at every depth and one too deep, and among other objects.
fn empty_groups(files: &mut Files, seed: u64) {
    for version in Version::ALL {
        let to_depth = |depth| empty_to_depth(version, depth, &chars("bay"));
        add(files, "an empty outer group", version, &to_depth(1));
        add(files, "empty groups to depth 16", version, &to_depth(16));
        add(files, "10: an empty group at depth 17", version, &to_depth(17));
        let mut drawing = generate::drawing(seed + 1, version, 900);
        let with_one_before = |object| [special::empty_groups(1), vec![object]].concat();
        drawing.outer.objects = drawing.outer.objects.into_iter().flat_map(with_one_before).collect();
        add(files, "an empty group before each object", version, &drawing);
    }
}

/// The bytes that each sort of flag is given for true (02, R-4).
pub const TRUE_BYTES: [u8; 4] = [2, 127, 128, 255];

/// Each sort of flag of each version, true by other bytes than 1; all of a drawing's flags at once; and flow frame flags.
fn true_flags(files: &mut Files, seed: u64) {
    for version in Version::ALL {
        let mut drawings = vec![sampler(seed, version), at_ends(seed, version, true)];
        drawings.extend(every_settings(seed, version));
        drawings.extend((0..20).map(|more| generate::drawing(seed + more, version, 900)));
        let mut met = Vec::new();
        for drawing in &drawings {
            let file = write::file(drawing);
            for field in of_file(drawing).iter().filter(|field| files::is_true_flag(field)) {
                let Kind::Flag { of } = field.kind else { continue };
                if met.contains(&of) {
                    continue;
                }
                met.push(of);
                for byte in TRUE_BYTES {
                    let what = format!("1.{}: {of} flag of {byte} at {}", version.minor(), field.place);
                    files.push((what, files::put(&file, field, byte.into())));
                }
            }
        }
        let all = sampler(seed + 2, version);
        let mut file = write::file(&all);
        let fields = of_file(&all);
        let flow_flags: Vec<_> = fields.iter().filter(|field| field.kind == Kind::FlowFlag).collect();
        for (field, byte) in flow_flags.iter().rev().zip(TRUE_BYTES) {
            let what = format!("1.{}: 11: flow flag of {byte} at {}", version.minor(), field.place);
            files.push((what, files::put(&file, field, byte.into())));
        }
        for (field, byte) in
            fields.iter().filter(|field| files::is_true_flag(field)).zip(TRUE_BYTES.iter().cycle())
        {
            file[field.place] = *byte;
        }
        files.push((format!("1.{}: every true flag of another byte", version.minor()), file));
    }
}

fn noise(files: &mut Files, seed: u64) {
    let mut random = Random::new(seed);
    files.push(("200 random bytes".into(), files::random_bytes(&mut random, 200)));
    let head = plans::plan_a()[..16].to_vec();
    let noise = files::random_bytes(&mut random, 300);
    files.push(("a good head and 300 random bytes".into(), files::longer(&head, &noise)));
}
