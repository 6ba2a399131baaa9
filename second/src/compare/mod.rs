//! Compares the linked library with this program, call by call, for so many seconds.

mod boxes;
mod calls;
mod report;
mod rounds;
mod runs;
mod session_calls;
mod sessions;
mod sheets;

use calls::Comparer;
use report::Report;
use second::random::Random;
use std::fs::{self, File};
use std::io::{Seek, Write};
use std::path::PathBuf;
use std::process::ExitCode;
use std::time::{Duration, Instant};

pub struct Options {
    seconds: u64,
    seed: u64,
    /// Where inputs with a disagreement are written.
    out: PathBuf,
    /// Where the seed of the round under way is kept, for a library that does not come back.
    trace: Option<PathBuf>,
}

impl Options {
    pub fn parse(words: &[&str]) -> Result<Options, String> {
        let mut options = Options { seconds: 10, seed: 1, out: PathBuf::from("."), trace: None };
        for pair in words.chunks(2) {
            match *pair {
                ["--seconds", value] => options.seconds = crate::number(value)?,
                ["--seed", value] => options.seed = crate::number(value)?,
                ["--out", value] => options.out = PathBuf::from(value),
                ["--trace", value] => options.trace = Some(PathBuf::from(value)),
                _ => return Err(format!("no such option: {}", pair.join(" "))),
            }
        }
        Ok(options)
    }
}

/// Round after round, the seed one more each time; a seed with 0 seconds gives that one round.
pub fn run(options: Options) -> Result<ExitCode, String> {
    fs::create_dir_all(&options.out).map_err(|error| format!("{}: {error}", options.out.display()))?;
    let mut trace = options.trace.map(File::create).transpose().map_err(|error| error.to_string())?;
    let mut comparer = Comparer { random: Random::new(0), report: Report::new(options.out) };
    let begun = Instant::now();
    let mut rounds = 0;
    while rounds == 0 || begun.elapsed() < Duration::from_secs(options.seconds) {
        let seed = options.seed.wrapping_add(rounds);
        if let Some(file) = &mut trace {
            keep(file, seed).map_err(|error| error.to_string())?;
        }
        rounds::round(&mut comparer, seed);
        rounds += 1;
    }
    comparer.report.print_totals(rounds, begun.elapsed());
    Ok(if comparer.report.disagreements == 0 { ExitCode::SUCCESS } else { ExitCode::FAILURE })
}

fn keep(file: &mut File, seed: u64) -> std::io::Result<()> {
    file.rewind()?;
    writeln!(file, "{seed:020}")
}
