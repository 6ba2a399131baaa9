//! Sheets (02, R-3): the bytes that a table is stored as, and the answers of their writer and reader.
//!
//! 'First the row count and word count, then the contents, then the bodies. The two counts and all the contents numbers are 16-bit
//! big-endian, body words 32-bit.' How wide a count is stands in one place, the edition.

use crate::answer::Answer;
use crate::check::{self, Good};
use crate::table::{self, Table, ROW};

/// How sheets spell counts and contents numbers.
#[derive(Clone, Copy, Debug, PartialEq, Eq)]
pub struct Edition {
    /// The bytes of each of them.
    pub width: usize,
}

/// The edition that is written and read.
pub const EDITION: Edition = Edition { width: 2 };

/// The bytes of a word of the bodies.
pub const WORD: usize = 4;

impl Edition {
    /// Where the contents begin: behind the two counts.
    pub const fn contents_at(self) -> usize {
        2 * self.width
    }

    /// Where the bodies begin, behind so many rows.
    pub const fn bodies_at(self, rows: usize) -> usize {
        self.contents_at() + rows * ROW * self.width
    }

    /// How long a sheet of so many rows and words is.
    pub const fn length(self, rows: usize, words: usize) -> usize {
        self.bodies_at(rows) + words * WORD
    }

    /// The number's bytes, if it fits.
    pub fn spelled(self, number: u32) -> Option<Vec<u8>> {
        let bytes = number.to_be_bytes();
        let (high, low) = bytes.split_at(bytes.len() - self.width);
        high.iter().all(|byte| *byte == 0).then(|| low.to_vec())
    }

    /// The bytes of a table, good or not; None where a count or a contents number does not fit.
    pub fn sheet(self, table: &Table) -> Option<Vec<u8>> {
        let mut sheet = Vec::new();
        for number in [table.rows(), table.words()].iter().chain(&table.contents) {
            sheet.extend(self.spelled(*number)?);
        }
        table.bodies.iter().for_each(|word| sheet.extend(word.to_be_bytes()));
        Some(sheet)
    }

    /// The counts and words that stand in these bytes, good or not; None where their length is not the one that the counts say.
    pub fn table(self, sheet: &[u8]) -> Option<Table> {
        let (counts, rest) = sheet.split_at_checked(self.contents_at())?;
        let (rows, words) = counts.split_at(self.width);
        let [rows, words] = [rows, words].map(|count| number(count) as usize);
        if sheet.len() != self.length(rows, words) {
            return None;
        }
        let (contents, bodies) = rest.split_at(rows * ROW * self.width);
        Some(Table {
            contents: contents.chunks_exact(self.width).map(number).collect(),
            bodies: bodies.chunks_exact(WORD).map(number).collect(),
        })
    }
}

/// The number that these bytes spell, the highest first.
fn number(bytes: &[u8]) -> u32 {
    bytes.iter().fold(0, |number, byte| number << 8 | u32::from(*byte))
}

/// The sheet of a good table. Its numbers fit, since there are no more words than its file has bytes.
fn of(good: &Good) -> Option<Vec<u8>> {
    EDITION.sheet(&good.table)
}

/// By the definition: the bytes are the sheet of a table that an acceptable file gives.
pub fn good(sheet: &[u8]) -> Option<Good> {
    let table = EDITION.table(sheet)?;
    let good = check::good(&table.contents, &table.bodies)?;
    (of(&good)? == sheet).then_some(good)
}

/// The sheet_write call: 16 first, then 17 with the bytes needed, then 0 with the bytes written and the table's counts.
pub fn write_call(good: Option<&Good>, lent: &mut [u8]) -> Answer {
    let Some((good, sheet)) = good.and_then(|good| Some((good, of(good)?))) else {
        return Answer::refused(16, 0);
    };
    let length = sheet.len();
    if lent.len() < length {
        return Answer::refused(17, length as u32);
    }
    lent[..length].copy_from_slice(&sheet);
    Answer::new(0, length as u32, good.table.rows(), good.table.words())
}

/// The sheet_read call: 19 first, then 14, 15 and 0 as the read call, with the sheet's length for the file's. Never 1.
pub fn read_call(sheet: &[u8], contents: &mut [u32], bodies: &mut [u32]) -> Answer {
    match good(sheet) {
        None => Answer::refused(19, 0),
        Some(good) => table::hand_back(&good.table, sheet.len() as u32, contents, bodies),
    }
}
