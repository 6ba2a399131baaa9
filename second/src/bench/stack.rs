//! The deepest stack of each of the library's calls, over the plans that go deepest: leaves of every sort, with the longest chains of
//! markers, inside as many groups as there may be.
//!
//! A call is made in a thread whose stack is painted below it first; what is no longer painted afterwards was used.

use super::work::{given, lent};
use crate::library;
use second::generate::chars;
use second::generate::sheets::sheet;
use second::generate::special::{nested, plain_drawing, sampler, with_chains};
use second::model::Object;
use second::session::LentSession;
use second::table::{self, Table};
use second::version::{Version, DEEPEST_GROUP};
use second::write;
use std::hint::black_box;
use std::process::ExitCode;
use std::ptr;
use std::thread;

const PAINT: u8 = 0xa5;
/// How much of the stack is painted.
const PAINTED: usize = 256 * 1024;
/// What is left alone below the place where painting begins: the painter's own frame.
const MARGIN: usize = 256;

/// The lowest painted address, and the place that depths are counted from.
struct Painted {
    low: usize,
    top: usize,
}

#[inline(never)]
fn paint() -> Painted {
    let here = 0u8;
    let top = ptr::from_ref(&here) as usize;
    let low = top - PAINTED;
    for place in low..top - MARGIN {
        // Safety: the thread's stack is several times as large, and nothing lives below this frame.
        unsafe { ptr::write_volatile(place as *mut u8, PAINT) };
    }
    Painted { low, top }
}

#[inline(never)]
fn used(painted: &Painted) -> usize {
    let untouched = |place: &usize| {
        // Safety: as above.
        let byte = unsafe { ptr::read_volatile(*place as *const u8) };
        byte == PAINT
    };
    let free = (painted.low..painted.top - MARGIN).take_while(untouched).count();
    painted.top - painted.low - free
}

/// How deep a call goes.
fn depth(call: impl FnOnce() + Send) -> usize {
    thread::scope(|scope| {
        let run = move || {
            let painted = paint();
            call();
            used(&painted)
        };
        let thread = thread::Builder::new().stack_size(4 * PAINTED).spawn_scoped(scope, run);
        thread.expect("a thread").join().expect("a call that returns")
    })
}

struct Plan {
    file: Vec<u8>,
    table: Table,
    sheet: Vec<u8>,
}

/// Plans whose leaves lie as deep as they may.
fn deepest(version: Version) -> Vec<Plan> {
    let mut leaves: Vec<Object> = sampler(1, version).outer.objects;
    if version >= Version::ALL[1] {
        leaves.extend(with_chains(1, version, [4, 4, 4]).outer.objects);
    }
    let flat = leaves.into_iter().filter(|leaf| !matches!(leaf, Object::Group(_)));
    let plan = |leaf| {
        let drawing = plain_drawing(version, vec![nested(leaf, DEEPEST_GROUP - 1)]);
        Plan { file: write::file(&drawing), table: table::of(&drawing), sheet: sheet(&drawing) }
    };
    flat.map(plan).collect()
}

type Use = (&'static str, fn(&Plan));

/// Each call, and the ways to make it that matter.
const CALLS: [Use; 11] = [
    ("jdr_read", |plan| {
        let (mut contents, mut bodies) =
            (vec![0; plan.table.contents.len()], vec![0; plan.table.bodies.len()]);
        black_box(library::read(given(&plan.file), lent(&mut contents), lent(&mut bodies)));
    }),
    ("jdr_check", |plan| {
        black_box(library::check(given(&plan.table.contents), given(&plan.table.bodies)));
    }),
    ("jdr_box", |plan| {
        black_box(library::extent(
            given(&plan.table.contents),
            given(&plan.table.bodies),
            plan.table.rows() - 1,
        ));
    }),
    ("jdr_write", |plan| {
        let mut file = vec![0; plan.file.len()];
        black_box(library::write(given(&plan.table.contents), given(&plan.table.bodies), lent(&mut file)));
    }),
    ("jdr_list", |plan| {
        let mut entries = vec![0; plan.table.rows() as usize];
        let label = chars("machine");
        black_box(library::list(
            given(&plan.table.contents),
            given(&plan.table.bodies),
            given(&label),
            lent(&mut entries),
        ));
        black_box(library::list(
            given(&plan.table.contents),
            given(&plan.table.bodies),
            given(&[]),
            lent(&mut entries),
        ));
    }),
    ("jdr_paint", |plan| {
        for which in 0..3 {
            black_box(library::paint(
                given(&plan.table.contents),
                given(&plan.table.bodies),
                plan.table.rows() - 1,
                which,
            ));
        }
    }),
    ("jdr_text", |plan| {
        black_box(library::text(
            given(&plan.table.contents),
            given(&plan.table.bodies),
            plan.table.rows() - 1,
        ));
    }),
    ("jdr_description", |plan| {
        black_box(library::description(
            given(&plan.table.contents),
            given(&plan.table.bodies),
            plan.table.rows() - 1,
        ));
    }),
    ("jdr_sheet_write", |plan| {
        let mut sheet = vec![0; plan.sheet.len()];
        black_box(library::sheet_write(
            given(&plan.table.contents),
            given(&plan.table.bodies),
            lent(&mut sheet),
        ));
    }),
    ("jdr_sheet_read", |plan| {
        let (mut contents, mut bodies) =
            (vec![0; plan.table.contents.len()], vec![0; plan.table.bodies.len()]);
        black_box(library::sheet_read(given(&plan.sheet), lent(&mut contents), lent(&mut bodies)));
    }),
    ("jdr_session_piece", |plan| {
        let mut session = LentSession { words: [0; LentSession::WORDS] };
        black_box(library::session_open(&mut session));
        for piece in plan.file.chunks(100) {
            black_box(library::session_piece(&mut session, given(piece)));
        }
        black_box(library::session_verdict(&mut session));
    }),
];

pub fn run() -> Result<ExitCode, String> {
    let plans: Vec<Plan> = Version::ALL.into_iter().flat_map(deepest).collect();
    println!("| call | deepest stack, bytes |\n|---|---|");
    for (name, call) in CALLS {
        let deepest = plans.iter().map(|plan| depth(|| call(plan))).max().unwrap_or(0);
        println!("| {name} | {} |", deepest.next_multiple_of(16));
    }
    Ok(ExitCode::SUCCESS)
}
