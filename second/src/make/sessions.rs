//! Cases of the session calls.

use super::{hash, Case};
use crate::answer::Answer;
use crate::damage::fields::of_file;
use crate::damage::{cuts, files};
use crate::generate::chars;
use crate::generate::special::{
    empty_to_depth, of_depth, padded, plain_bitmap, plain_drawing, sampler, with_chains,
};
use crate::model::{Drawing, Object};
use crate::plans;
use crate::random::Random;
use crate::session::{LentSession, Session, NO_SESSION};
use crate::version::{Version, LONGEST_FILE};
use crate::write;

/// A file in pieces, before it has a session to be given to.
struct Cut {
    name: String,
    file: Vec<u8>,
    cuts: Vec<usize>,
}

type Cuts = Vec<Cut>;

/// Depth and count of bytes of the made-up sessions, which the cases take in turn: within the limits, at them and over one or both.
const MADE_UP: [(u32, u32); 8] = [
    (0, 0),
    (17, 0),
    (16, 65_536),
    (0, 65_537),
    (u32::MAX, 5),
    (16, u32::MAX),
    (17, 65_537),
    (0x8000_0000, 0x8000_0000),
];

pub fn cases(seed: u64) -> Vec<Case> {
    let mut random = Random::new(seed);
    let mut all = Cuts::new();
    marked(&mut all);
    empty_pieces(&mut all);
    for version in Version::ALL {
        good(&mut all, version, seed, &mut random);
        damaged(&mut all, version, seed, &mut random);
    }
    nested(&mut all, seed, &mut random);
    long(&mut all);
    let made_up = MADE_UP.iter().cycle();
    all.into_iter().zip(made_up).map(|(cut, made_up)| case(cut, *made_up, &mut random)).collect()
}

fn add(all: &mut Cuts, name: impl Into<String>, file: &[u8], cuts: Vec<usize>) {
    all.push(Cut { name: name.into(), file: file.to_vec(), cuts });
}

/// Every marked plan byte by byte, and plan A with each single cut.
fn marked(all: &mut Cuts) {
    for plan in plans::marked() {
        let cuts = cuts::every(plan.file.len(), 1);
        add(all, format!("{}, byte by byte", plan.name), &plan.file, cuts);
    }
    let file = plans::plan_a();
    add(all, "plan A in one piece", &file, Vec::new());
    for cut in 0..=file.len() {
        add(all, format!("plan A cut at {cut}"), &file, vec![cut]);
    }
}

fn empty_pieces(all: &mut Cuts) {
    add(all, "no bytes in four pieces", &[], vec![0; 3]);
    let file = plans::plan_a();
    let twice: Vec<usize> = (0..=file.len()).flat_map(|place| [place, place]).collect();
    add(all, "plan A byte by byte, an empty piece after each", &file, twice);
}

/// Every kind of part, cut before each field, in the middle of each, and into equal pieces.
fn good(all: &mut Cuts, version: Version, seed: u64, random: &mut Random) {
    let drawing = sampler(seed, version);
    let (file, fields) = (write::file(&drawing), of_file(&drawing));
    let minor = version.minor();
    let before = fields.iter().map(|field| field.place).collect();
    add(all, format!("1.{minor}: cut before every field"), &file, before);
    let inside = fields.iter().filter(|field| field.kind.width() > 1);
    let inside = inside.map(|field| field.place + random.within(1, field.kind.width() - 1)).collect();
    add(all, format!("1.{minor}: cut inside every field"), &file, inside);
    for size in [64, 183, 184, 185, 512] {
        let cuts = cuts::every(file.len(), size);
        add(all, format!("1.{minor}: pieces of {size} bytes"), &file, cuts);
    }
    let spelled = files::respelled(random, &file, &fields);
    let cuts = cuts::any(random, spelled.len());
    add(all, format!("1.{minor}: true flags of other bytes"), &spelled, cuts);
}

/// Damage of every sort.
fn damaged(all: &mut Cuts, version: Version, seed: u64, random: &mut Random) {
    let drawing = sampler(seed + 1, version);
    let (file, fields) = (write::file(&drawing), of_file(&drawing));
    for _ in 0..16 {
        let damaged = files::any(random, &file, &fields);
        let cuts = cuts::any(random, damaged.len());
        add(all, format!("1.{}: damaged", version.minor()), &damaged, cuts);
    }
}

/// Groups as deep as they may be and deeper, chains as long as they may be and longer.
fn nested(all: &mut Cuts, seed: u64, random: &mut Random) {
    let [v0, v1, v2, .., v5] = Version::ALL;
    let mut add_drawing = |name: &str, drawing: &Drawing| {
        let file = write::file(drawing);
        let cuts = cuts::any(random, file.len());
        add(all, format!("1.{}: {name}", drawing.version.minor()), &file, cuts);
    };
    for (version, depth) in [(v0, 16), (v0, 17), (v2, 16), (v5, 17)] {
        add_drawing(&format!("depth {depth}"), &of_depth(version, depth, &chars("deep")));
        add_drawing(
            &format!("empty groups to depth {depth}"),
            &empty_to_depth(version, depth, &chars("bay")),
        );
    }
    for (version, lengths) in [(v1, [4, 4, 4]), (v1, [5, 0, 0]), (v5, [4, 4, 5])] {
        add_drawing(&format!("chains of {lengths:?} markers"), &with_chains(seed, version, lengths));
    }
}

/// Files that grow to the limit and past it, after a fault too.
fn long(all: &mut Cuts) {
    let small = plain_drawing(Version::ALL[0], vec![Object::Bitmap(plain_bitmap(1))]);
    for length in [LONGEST_FILE, LONGEST_FILE + 1] {
        let file = write::file(&padded(small.clone(), length));
        add(all, format!("a good layout of {length} bytes"), &file, cuts::every(length, 700));
    }
    for (name, start) in [("plan A", plans::plan_a()), ("no plan", b"no plan".to_vec())] {
        for length in [LONGEST_FILE, LONGEST_FILE + 1, LONGEST_FILE + 2] {
            let mut file = start.clone();
            file.resize(length, 0);
            let cuts = vec![start.len(), 40_000, LONGEST_FILE];
            add(all, format!("{name} grown to {length} bytes"), &file, cuts);
        }
    }
}

/// The data file and the groups of its line.
fn case(cut: Cut, made_up: (u32, u32), random: &mut Random) -> Case {
    let Cut { name, file, cuts } = cut;
    let middle = random.within(0, file.len());
    let mut session = Session::default();
    let opened = vec![session.open()];
    let mut groups = vec![given(&mut session, opened, &file, &cuts)];
    groups.push(more(&mut session, &file, &cuts));
    let opened = vec![session.open()];
    groups.push(given(&mut session, opened, &file[..middle], &cuts));
    groups.push(more(&mut session, &file[middle..], &cuts));
    groups.extend([(); 2].map(|()| refused(made_up)));
    Case { data: data(made_up, middle, &cuts, &file), name, groups }
}

/// Big-endian words: depth and count of bytes of the made-up session, the middle, the number of cuts, the cuts. Then the file.
fn data(made_up: (u32, u32), middle: usize, cuts: &[usize], file: &[u8]) -> Vec<u8> {
    let places = [middle, cuts.len()].into_iter().chain(cuts.iter().copied());
    let words = [made_up.0, made_up.1].into_iter().chain(places.map(|place| place as u32));
    words.flat_map(u32::to_be_bytes).chain(file.iter().copied()).collect()
}

/// The pieces of a part of the file, and the verdict: its answer, and the hash of all answers before it. A cut behind the part's end
/// gives an empty piece.
fn given(session: &mut Session, mut answers: Vec<Answer>, part: &[u8], cuts: &[usize]) -> String {
    let cuts: Vec<usize> = cuts.iter().map(|cut| *cut.min(&part.len())).collect();
    answers.extend(cuts::pieces(part, &cuts).into_iter().map(|piece| session.piece(piece)));
    let words = |answer: &Answer| [answer.number, answer.offset, answer.rows, answer.words];
    let of_pieces = hash(answers.iter().flat_map(words));
    let Answer { number, offset, rows, words } = session.verdict();
    format!("{number} {offset} {rows} {words} {of_pieces:08x}")
}

/// The same of a spent session, and 1, since the pieces leave it as it is.
fn more(session: &mut Session, part: &[u8], cuts: &[usize]) -> String {
    given(session, Vec::new(), part, cuts) + " 1"
}

/// A call with a made-up session: 22 and that the session is as it was, or nothing that is promised.
fn refused((depth, bytes): (u32, u32)) -> String {
    let mut lent = LentSession { words: [0; LentSession::WORDS] };
    lent.words[LentSession::DEPTH] = depth;
    lent.words[LentSession::BYTES] = bytes;
    if lent.is_refused() {
        format!("{NO_SESSION} 0 0 0 1")
    } else {
        "-".to_string()
    }
}
