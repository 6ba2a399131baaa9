//! Reading, checking, writing, listing, the questions about a box and a description, storing and sessions as a program does it that cares
//! for time: from bytes to words and back, without the drawing in between and without memory of its own, but for a session's. A first walk
//! judges and counts before anything is stored, so a refusal stores nothing. The plain modules say what is right; this one is measured
//! beside the library, and `tests/direct.rs`, `direct_boxes.rs`, `direct_descriptions.rs`, `direct_sheets.rs` and `direct_sessions.rs` hold
//! it to the plain answers.

mod description;
mod extent;
mod from_file;
mod from_table;
mod list;
mod session;
mod sheet;
mod source;
mod walk;

use crate::answer::Answer;
use crate::table::ROW;
use crate::version::LONGEST_FILE;
pub use description::description;
pub use extent::extent;
use from_file::FromFile;
use from_table::FromTable;
pub use list::list;
pub use session::Session;
pub use sheet::{sheet_read, sheet_write};
use source::{Runs, Source};

/// The read call.
pub fn read(file: &[u8], contents: &mut [u32], bodies: &mut [u32]) -> Answer {
    if file.len() > LONGEST_FILE {
        return Answer::refused(1, LONGEST_FILE as u32);
    }
    let (rows, words) = match from_file::walk(FromFile::new(file, from_file::Counted::default())) {
        Err(refusal) => return Answer::refused(refusal.number, refusal.offset),
        Ok(counted) => (counted.rows, counted.words),
    };
    let answer = |number| Answer::new(number, file.len() as u32, rows as u32, words as u32);
    if contents.len() / ROW < rows {
        return answer(14);
    }
    if bodies.len() < words {
        return answer(15);
    }
    let stored = from_file::Stored::new(contents, bodies);
    // The first walk has found no fault, and there is none in the second.
    match from_file::walk(FromFile::new(file, stored)) {
        Err(refusal) => Answer::refused(refusal.number, refusal.offset),
        Ok(_) => answer(0),
    }
}

/// The file's length if the words are a table that an acceptable file gives.
fn length(table: impl Source) -> Option<usize> {
    let counted = from_table::walk(FromTable::new(table, from_table::Counted::default()))?;
    (counted.bytes <= LONGEST_FILE).then_some(counted.bytes)
}

fn accepted(length: usize, contents: &[u32], bodies: &[u32]) -> Answer {
    Answer::new(0, length as u32, (contents.len() / ROW) as u32, bodies.len() as u32)
}

/// The check call.
pub fn check(contents: &[u32], bodies: &[u32]) -> Answer {
    match length(Runs { contents, bodies }) {
        None => Answer::refused(16, 0),
        Some(length) => accepted(length, contents, bodies),
    }
}

/// The write call.
pub fn write(contents: &[u32], bodies: &[u32], file: &mut [u8]) -> Answer {
    let Some(length) = length(Runs { contents, bodies }) else {
        return Answer::refused(16, 0);
    };
    if file.len() < length {
        return Answer::refused(17, length as u32);
    }
    let stored = from_table::Stored::new(&mut file[..length]);
    match from_table::walk(FromTable::new(Runs { contents, bodies }, stored)) {
        None => Answer::refused(16, 0),
        Some(_) => accepted(length, contents, bodies),
    }
}
