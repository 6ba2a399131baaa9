//! The drawing of a table, if an acceptable file gives this table (01, 'The table'; demand 2).

mod candidate;
mod words;

use crate::answer::Answer;
use crate::model::Drawing;
use crate::table::{self, Table};
use crate::{read, write};

/// A table that an acceptable file gives, with that file and its drawing.
pub struct Good {
    pub drawing: Drawing,
    pub file: Vec<u8>,
    pub table: Table,
}

/// By the definition: the table is good if it is exactly the one that some acceptable file gives.
/// A candidate drawing is decoded from the words and encoded; reading these bytes back judges every
/// rule and limit, and the table of what was read has to be the given one, word by word.
pub fn good(contents: &[u32], bodies: &[u32]) -> Option<Good> {
    let candidate = candidate::drawing(contents, bodies)?;
    let file = write::file(&candidate);
    let drawing = read::drawing(&file).ok()?;
    let table = table::of(&drawing);
    if table.contents != contents || table.bodies != bodies {
        return None;
    }
    Some(Good { drawing, file, table })
}

/// The check call: 16 with counts 0, or 0 with the file's length and the counts.
pub fn call(good: Option<&Good>) -> Answer {
    match good {
        None => Answer::refused(16, 0),
        Some(good) => Answer::new(0, good.file.len() as u32, good.table.rows(), good.table.words()),
    }
}
