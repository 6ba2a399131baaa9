//! Measures the library through its C interface beside this program's own calls, on seeded plans: megabytes of file a second, and
//! instructions for each byte of file, of a sheet's calls too, so that a plan's sheet and its file compare. The table is printed as
//! Markdown.

mod plans;
pub mod stack;
mod work;

use std::hint::black_box;
use std::process::{Command, ExitCode};
use std::time::{Duration, Instant};
use work::{Call, Who, Work};

/// A measurement is the best of so many batches, each of about this time: a shared machine only ever slows one down.
const BATCHES: usize = 15;
const BATCH: Duration = Duration::from_millis(15);

fn batch(count: u32, repetition: &mut impl FnMut()) -> Duration {
    let begun = Instant::now();
    for _ in 0..count {
        repetition();
    }
    begun.elapsed()
}

/// How often to repeat in a batch.
fn count_of(repetition: &mut impl FnMut()) -> u32 {
    let mut count = 1;
    while batch(count, repetition) < BATCH {
        count *= 2;
    }
    count
}

/// Megabytes a second of each of these, which take turns batch by batch, so that all meet the machine in the same state.
fn rates<const N: usize>(bytes: usize, mut repetition: impl FnMut(usize)) -> [f64; N] {
    let counts: [u32; N] = std::array::from_fn(|each| count_of(&mut || repetition(each)));
    let mut best = [f64::INFINITY; N];
    for _ in 0..BATCHES {
        for (each, count) in counts.into_iter().enumerate() {
            let taken = batch(count, &mut || repetition(each));
            best[each] = best[each].min(taken.as_secs_f64() / f64::from(count));
        }
    }
    best.map(|seconds| bytes as f64 / 1e6 / seconds)
}

/// Copies the files' bytes, each into one room.
fn copy(work: &mut Work) {
    for each in &mut work.each {
        each.output[..each.file.len()].copy_from_slice(black_box(&each.file));
        black_box(&mut each.output);
    }
}

/// What callgrind counts for a run of this program that repeats the call so often.
fn counted(plans: &str, call: Call, who: Who, times: u64) -> Option<u64> {
    let program = std::env::current_exe().ok()?;
    let ran = Command::new("valgrind")
        .args(["--tool=callgrind", "--callgrind-out-file=/dev/null"])
        .arg(program)
        .args(["bench-calls", plans, call.name(), who.name(), &times.to_string()])
        .output()
        .ok()?;
    let said = String::from_utf8_lossy(&ran.stderr).into_owned();
    let line = said.lines().find(|line| line.contains("Collected :"))?;
    line.rsplit(' ').next()?.parse().ok()
}

/// Instructions for each byte of file: the difference of two runs, so that start and end of the program drop out.
fn instructions(plans: &str, call: Call, who: Who, bytes: usize) -> Option<f64> {
    let few = counted(plans, call, who, 1)?;
    let more = counted(plans, call, who, 5)?;
    Some((more - few) as f64 / 4.0 / bytes as f64)
}

pub fn run() -> Result<ExitCode, String> {
    println!("| plans | bytes | call | library | direct | plain | memcpy | library/direct | library i/B | direct i/B | plain i/B | direct/library |");
    println!("|---|---|---|---|---|---|---|---|---|---|---|---|");
    for (name, make) in plans::ALL {
        let mut work = Work::new(&make());
        let bytes = work.bytes();
        for call in Call::linked().filter(|call| call.is_measured(name)) {
            let [library, direct, plain, copied] = rates(bytes, |each| match Who::ALL.get(each) {
                Some(who) => work.repeat(call, *who),
                None => copy(&mut work),
            });
            let speeds =
                format!("{library:.0} | {direct:.0} | {plain:.0} | {copied:.0} | {:.2}", library / direct);
            let counts = Who::ALL.map(|who| instructions(name, call, who, bytes));
            println!("| {name} | {bytes} | {} | {speeds} | {} |", call.name(), counts_in_words(counts));
        }
    }
    Ok(ExitCode::SUCCESS)
}

/// Instructions for each byte, and the tuned call's as a part of the library's; '-' where nothing counted them.
fn counts_in_words([library, direct, plain]: [Option<f64>; 3]) -> String {
    let ratio = library.zip(direct).map(|(library, direct)| direct / library);
    let words = [library, direct, plain, ratio]
        .map(|count| count.map_or("-".to_string(), |count| format!("{count:.2}")));
    words.join(" | ")
}

/// The calls of one kind over and over, and nothing else.
pub fn calls(plans: &str, call: &str, who: &str, times: u64) -> Result<ExitCode, String> {
    let none = |word: &str| format!("not known: {word}");
    let (_, make) = plans::ALL.into_iter().find(|(name, _)| *name == plans).ok_or(none(plans))?;
    let mut measured = Call::linked().filter(|each| each.is_measured(plans));
    let call = measured.find(|each| each.name() == call).ok_or(none(call))?;
    let who = Who::ALL.into_iter().find(|each| each.name() == who).ok_or(none(who))?;
    let mut work = Work::new(&make());
    for _ in 0..times {
        work.repeat(call, who);
    }
    Ok(ExitCode::SUCCESS)
}
