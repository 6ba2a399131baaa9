//! The calls of sheets. A sheet is judged where it lies, by the walk that judges tables; what is left to do is a copy.

use super::source::{number, Runs, Sheet};
use super::{accepted, length};
use crate::answer::Answer;
use crate::sheet::{EDITION, WORD};
use crate::table::ROW;

const NUMBER: usize = EDITION.width;

/// The sheet_write call.
pub fn sheet_write(contents: &[u32], bodies: &[u32], sheet: &mut [u8]) -> Answer {
    if length(Runs { contents, bodies }).is_none() {
        return Answer::refused(16, 0);
    }
    let rows = contents.len() / ROW;
    let needed = EDITION.length(rows, bodies.len());
    let Some(sheet) = sheet.get_mut(..needed) else {
        return Answer::refused(17, needed as u32);
    };
    // The numbers of a good table fit, since it has no more words than its file has bytes.
    let (counts, rest) = sheet.split_at_mut(EDITION.contents_at());
    let (rows_of_sheet, words_of_sheet) = rest.split_at_mut(contents.len() * NUMBER);
    put::<NUMBER>(counts, &[rows as u32, bodies.len() as u32]);
    put::<NUMBER>(rows_of_sheet, contents);
    put::<WORD>(words_of_sheet, bodies);
    accepted(needed, contents, bodies)
}

/// The lowest bytes of each word, in their places.
fn put<const WIDTH: usize>(bytes: &mut [u8], words: &[u32]) {
    for (place, word) in bytes.chunks_exact_mut(WIDTH).zip(words) {
        place.copy_from_slice(&word.to_be_bytes()[WORD - WIDTH..]);
    }
}

/// The sheet_read call.
pub fn sheet_read(sheet: &[u8], contents: &mut [u32], bodies: &mut [u32]) -> Answer {
    let Some(table) = Sheet::new(sheet).filter(|table| length(*table).is_some()) else {
        return Answer::refused(19, 0);
    };
    let (rows, words) = (table.rows(), table.words());
    let answer = |number| Answer::new(number, sheet.len() as u32, rows as u32, words as u32);
    if contents.len() / ROW < rows {
        return answer(14);
    }
    if bodies.len() < words {
        return answer(15);
    }
    for (word, bytes) in contents.iter_mut().zip(table.contents.chunks_exact(NUMBER)) {
        *word = number(bytes);
    }
    for (word, bytes) in bodies.iter_mut().zip(table.bodies.chunks_exact(WORD)) {
        *word = u32::from_be_bytes([bytes[0], bytes[1], bytes[2], bytes[3]]);
    }
    answer(0)
}
