//! The commands.

#[cfg(feature = "linked")]
mod bench;
#[cfg(feature = "linked")]
mod compare;
#[cfg(feature = "linked")]
mod library;

use second::{examples, lister, make, pipe, read, table, uptime};
use std::fs;
use std::path::Path;
use std::process::ExitCode;

const USAGE: &str = "\
second read FILE                         the answer, and the lister's lines of an accepted file
second plan FILE [LABEL]                 what the programs in examples/ print for a plan or a sheet
second plan store FILE SHEET             the same where they store a plan's sheet
second pipe BYTES <FILE                  what the programs named pipe print, with so many bytes at a time
second uptime FILE LIST HOURS            what the uptime program prints
second make-examples DIR                 their plans and sheets
second make-cases DIR [SEED]             cases of all calls
second compare [--seconds N] [--seed S] [--out DIR] [--trace FILE]
                                         compares the linked library (built with --features linked)
second bench                             measures the linked library beside this program
second stack                             measures the deepest stack of each call of the linked library
second bench-calls PLANS CALL WHO TIMES  the same calls over and over, for a tool that counts instructions";

fn main() -> ExitCode {
    let arguments: Vec<String> = std::env::args().skip(1).collect();
    let words: Vec<&str> = arguments.iter().map(String::as_str).collect();
    let done = match words[..] {
        ["read", file] => read_file(file),
        ["plan", file] => plan(file, None),
        ["plan", file, label] => plan(file, Some(label)),
        ["plan", "store", file, sheet] => store(file, sheet),
        ["pipe", most] => number(most).and_then(|most| piped(most as usize)),
        ["uptime", file, list, hours] => uptime_of(file, list, hours),
        ["make-examples", folder] => make_examples(Path::new(folder)),
        ["make-cases", folder] => make_cases(folder, 1),
        ["make-cases", folder, seed] => number(seed).and_then(|seed| make_cases(folder, seed)),
        ["compare", ref options @ ..] => compare(options),
        ["bench"] => bench(),
        ["stack"] => stack(),
        ["bench-calls", plans, call, who, times] => bench_calls(plans, call, who, times),
        _ => Err(USAGE.to_string()),
    };
    match done {
        Ok(code) => code,
        Err(message) => {
            eprintln!("{message}");
            ExitCode::from(2)
        }
    }
}

/// The answer with rooms large enough, then the lister's lines.
fn read_file(name: &str) -> Result<ExitCode, String> {
    let file = fs::read(name).map_err(|error| format!("{name}: {error}"))?;
    match read::drawing(&file) {
        Err(refusal) => println!("{} {} 0 0", refusal.number, refusal.offset),
        Ok(drawing) => {
            let table = table::of(&drawing);
            println!("0 {} {} {}", file.len(), table.rows(), table.words());
            print!("{}", lister::lines(&table));
        }
    }
    Ok(ExitCode::SUCCESS)
}

/// The exit status is that of the example programs too.
fn plan(name: &str, label: Option<&str>) -> Result<ExitCode, String> {
    let file = fs::read(name).map_err(|_| "the file cannot be read")?;
    let (lines, well) = examples::lines(name, &file, label);
    print!("{lines}");
    Ok(ExitCode::from(u8::from(!well)))
}

fn store(plan: &str, name: &str) -> Result<ExitCode, String> {
    let file = fs::read(plan).map_err(|_| "the file cannot be read")?;
    let (lines, sheet) = examples::stored(plan, &file);
    print!("{lines}");
    match sheet {
        None => Ok(ExitCode::FAILURE),
        Some(sheet) => {
            fs::write(name, sheet).map_err(|_| "the sheet cannot be written")?;
            Ok(ExitCode::SUCCESS)
        }
    }
}

fn piped(most: usize) -> Result<ExitCode, String> {
    let (line, well) = pipe::line(std::io::stdin().lock(), most).map_err(|_| "the plan cannot be read")?;
    println!("{line}");
    Ok(ExitCode::from(u8::from(!well)))
}

fn uptime_of(file: &str, list: &str, hours: &str) -> Result<ExitCode, String> {
    let file = fs::read(file).map_err(|_| "the file cannot be read")?;
    let list = fs::read_to_string(list).map_err(|_| "the list cannot be read")?;
    let (lines, status) = uptime::lines(&file, &list, hours.parse().map_err(|_| "no hours")?);
    print!("{lines}");
    Ok(ExitCode::from(status))
}

fn make_examples(folder: &Path) -> Result<ExitCode, String> {
    let failed = |error| format!("{}: {error}", folder.display());
    fs::create_dir_all(folder).map_err(failed)?;
    for (name, file) in examples::plans() {
        fs::write(folder.join(name), file).map_err(failed)?;
    }
    Ok(ExitCode::SUCCESS)
}

fn make_cases(folder: &str, seed: u64) -> Result<ExitCode, String> {
    let all = make::CALLS.map(|(call, cases)| (call, cases(seed)));
    make::write(Path::new(folder), &all).map_err(|error| format!("{folder}: {error}"))?;
    for (call, cases) in &all {
        let bytes: usize = cases.iter().map(|case| case.data.len()).sum();
        let (count, numbers) = (cases.len(), make::first_numbers(cases));
        println!("{call}: {count} cases, {bytes} bytes; how often each number is first: {numbers:?}");
    }
    Ok(ExitCode::SUCCESS)
}

fn number(word: &str) -> Result<u64, String> {
    word.parse().map_err(|_| format!("no number: {word}"))
}

#[cfg(feature = "linked")]
fn compare(options: &[&str]) -> Result<ExitCode, String> {
    compare::run(compare::Options::parse(options)?)
}

#[cfg(feature = "linked")]
fn bench() -> Result<ExitCode, String> {
    bench::run()
}

#[cfg(feature = "linked")]
fn stack() -> Result<ExitCode, String> {
    bench::stack::run()
}

#[cfg(feature = "linked")]
fn bench_calls(plans: &str, call: &str, who: &str, times: &str) -> Result<ExitCode, String> {
    bench::calls(plans, call, who, number(times)?)
}

#[cfg(not(feature = "linked"))]
const UNLINKED: &str = "this program was built without the library: see --features linked";

#[cfg(not(feature = "linked"))]
fn compare(_options: &[&str]) -> Result<ExitCode, String> {
    Err(UNLINKED.to_string())
}

#[cfg(not(feature = "linked"))]
fn stack() -> Result<ExitCode, String> {
    Err(UNLINKED.to_string())
}

#[cfg(not(feature = "linked"))]
fn bench() -> Result<ExitCode, String> {
    Err(UNLINKED.to_string())
}

#[cfg(not(feature = "linked"))]
fn bench_calls(_plans: &str, _call: &str, _who: &str, _times: &str) -> Result<ExitCode, String> {
    Err(UNLINKED.to_string())
}
