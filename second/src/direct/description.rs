//! The description question. The walk that judges the table notes how long the row's description is.

use super::from_table::{self, Bytes, Counted, FromTable};
use super::source::Runs;
use crate::answer::DescriptionAnswer;
use crate::table::ROW;
use crate::version::LONGEST_FILE;

/// Counts the bytes of the file, and notes the length of the description that ends here.
struct Found {
    counted: Counted,
    end: usize,
    length: Option<usize>,
}

impl<'a> Bytes<Runs<'a>> for Found {
    #[inline(always)]
    fn field<const WIDTH: usize>(&mut self, bits: u32) {
        Bytes::<Runs>::field::<WIDTH>(&mut self.counted, bits);
    }

    #[inline(always)]
    fn run<const WIDTH: usize>(&mut self, words: &'a [u32]) -> bool {
        Bytes::<Runs>::run::<WIDTH>(&mut self.counted, words)
    }

    #[inline(always)]
    fn described(&mut self, _: &Runs, end: usize, length: usize) {
        if end == self.end {
            self.length = Some(length);
        }
    }
}

/// The description question.
pub fn description(contents: &[u32], bodies: &[u32], row: u32) -> DescriptionAnswer {
    let words = contents.chunks_exact(ROW).nth(row as usize);
    // In a table that is none the sum may be anything, and no description ends there.
    let end = words.map_or(0, |words| words[2] as usize + words[3] as usize);
    let found = Found { counted: Counted::default(), end, length: None };
    let walked = from_table::walk(FromTable::new(Runs { contents, bodies }, found));
    let Some(found) = walked.filter(|found| found.counted.bytes <= LONGEST_FILE) else {
        return DescriptionAnswer::refused(16);
    };
    if words.is_none() {
        return DescriptionAnswer::refused(6);
    }
    // Below 1.2 a body has no words of a description.
    match found.length {
        Some(length) if bodies[0] >= 2 => {
            DescriptionAnswer { number: 0, start: (end - length) as u32, length: length as u32 }
        }
        _ => DescriptionAnswer::default(),
    }
}
