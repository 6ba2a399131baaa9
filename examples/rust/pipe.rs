//! Tells whether a plan that comes over a pipe is good, piece by piece and without storing it: pipe [BYTES] <PLAN, with the most bytes that
//! are read at a time.

use jdr::{Refused, Session, Verdict};
use std::io::Read;
use std::process::ExitCode;

const MOST: usize = 4096;

/// The verdict on all that comes, or why it cannot be had.
fn judge(most: usize) -> std::io::Result<Result<Verdict, Refused>> {
    let mut session = Session::new();
    let mut room = [0; MOST];
    let mut input = std::io::stdin().lock();
    loop {
        let length = input.read(&mut room[..most])?;
        if length == 0 {
            return Ok(session.verdict());
        }
        session.feed(&room[..length]);
    }
}

fn fail(message: &str) -> ExitCode {
    eprintln!("{message}");
    ExitCode::from(2)
}

fn main() -> ExitCode {
    let arguments: Vec<String> = std::env::args().skip(1).collect();
    let most = match &arguments[..] {
        [] => 512,
        [most] => most.parse().unwrap_or(0),
        _ => 0,
    };
    if !(1..=MOST).contains(&most) {
        return fail("usage: pipe [BYTES] <PLAN, with 1 to 4096 bytes");
    }
    match judge(most) {
        Ok(Ok(Verdict { length, rows, words })) => {
            println!("verdict: 0 {length} {rows} {words}");
            ExitCode::SUCCESS
        }
        Ok(Err(refused)) => {
            println!("verdict: {} {} 0 0", refused.number(), refused.offset);
            ExitCode::FAILURE
        }
        Err(_) => fail("the plan cannot be read"),
    }
}
