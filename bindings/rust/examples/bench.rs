//! What the calls cost through the crate beside the same calls of C, on the plans that are named: microseconds a call, a line for each as `plan call C Rust`.
//! tools/bench_bindings runs it.

use jdr::{calls, Session, Table, Which};
use std::hint::black_box;
use std::time::{Duration, Instant};

/// A measurement is the best of so many batches, each of about this time: a shared machine only ever slows one down.
const BATCHES: usize = 60;
const BATCH: Duration = Duration::from_millis(3);

/// The bytes that a session is given at a time.
const PIECE: usize = 512;

fn timed<T>(count: u32, call: &mut impl FnMut() -> T) -> Duration {
    let begun = Instant::now();
    for _ in 0..count {
        black_box(call());
    }
    begun.elapsed()
}

/// Microseconds a call.
fn time<T>(mut call: impl FnMut() -> T) -> f64 {
    let mut count = 1;
    while timed(count, &mut call) < BATCH {
        count *= 2;
    }
    let best = (0..BATCHES).map(|_| timed(count, &mut call)).min().unwrap_or_default();
    best.as_secs_f64() * 1e6 / f64::from(count)
}

fn measure(name: &str, file: &[u8]) -> Result<(), jdr::Refused> {
    let table = Table::read(file)?;
    let plan = table.view();
    let (contents, bodies) = (plan.contents(), plan.bodies());
    let (mut to_contents, mut to_bodies) = (contents.to_vec(), bodies.to_vec());
    let (mut to_file, mut to_entries) = (file.to_vec(), vec![0; plan.len()]);
    let line = |call: &str, c: f64, rust: f64| println!("{name} {call} {c:.1} {rust:.1}");

    let c = time(|| calls::read(black_box(file), &mut to_contents, &mut to_bodies));
    line("read", c, time(|| Table::read(black_box(file))));
    let c = time(|| calls::check(black_box(contents), bodies));
    line("check", c, time(|| black_box(plan).file_len()));
    let c = time(|| calls::write(black_box(contents), bodies, &mut to_file));
    line("write", c, time(|| black_box(plan).write()));
    let mut to_sheet = plan.write_sheet();
    let sheet = to_sheet.clone();
    let c = time(|| calls::sheet_write(black_box(contents), bodies, &mut to_sheet));
    line("sheet_write", c, time(|| black_box(plan).write_sheet()));
    let c = time(|| calls::sheet_read(black_box(&sheet), &mut to_contents, &mut to_bodies));
    line("sheet_read", c, time(|| Table::read_sheet(black_box(&sheet))));
    let c = time(|| calls::list(black_box(contents), bodies, &[], &mut to_entries));
    line("find", c, time(|| black_box(plan).find("").map(|found| found.row()).sum::<u32>()));
    let c = time(|| calls::paint(black_box(contents), bodies, 1, 0));
    line("paint", c, time(|| black_box(plan).paint(1, Which::Line)));
    let c = time(|| calls::text(black_box(contents), bodies, 1));
    line("text", c, time(|| black_box(plan).text(1).map(|text| text.shown().to_string())));
    let c = time(|| calls::description(black_box(contents), bodies, 1));
    line("description", c, time(|| black_box(plan).description(1).map(|own| own.to_string())));
    let c = time(|| calls::extent(black_box(contents), bodies, 1));
    line("box", c, time(|| black_box(plan).extent(1)));
    let mut lent = calls::SessionStruct::ZERO;
    let c = time(|| {
        calls::session_open(&mut lent);
        for piece in black_box(file).chunks(PIECE) {
            calls::session_piece(&mut lent, piece);
        }
        calls::session_verdict(&mut lent)
    });
    let session = || {
        let mut session = Session::new();
        black_box(file).chunks(PIECE).for_each(|piece| session.feed(piece));
        session.verdict()
    };
    line("session", c, time(session));
    let walk =
        || plan.objects().map(|object| object.kind() as usize + object.groups().count()).sum::<usize>();
    line("walk", f64::NAN, time(walk));
    Ok(())
}

fn main() -> Result<(), Box<dyn std::error::Error>> {
    for path in std::env::args().skip(1) {
        measure(&path, &std::fs::read(&path)?)?;
    }
    Ok(())
}
