//! The list call. The walk that judges the table counts the entries too, since it passes every description; the entries themselves are
//! then found row by row, without a second walk over what has another label.

use super::from_table::{self, Bytes, Counted, FromTable};
use super::source::Runs;
use super::walk::GROUP;
use crate::answer::Answer;
use crate::table::ROW;
use crate::version::LONGEST_FILE;

/// Counts the bytes of the file and the objects with a label.
struct Matched<'a> {
    counted: Counted,
    label: &'a [u16],
    entries: usize,
}

impl<'a> Matched<'a> {
    fn new(label: &'a [u16]) -> Matched<'a> {
        Matched { counted: Counted::default(), label, entries: 0 }
    }
}

impl<'a> Bytes<Runs<'a>> for Matched<'_> {
    #[inline(always)]
    fn field<const WIDTH: usize>(&mut self, bits: u32) {
        Bytes::<Runs>::field::<WIDTH>(&mut self.counted, bits);
    }

    #[inline(always)]
    fn run<const WIDTH: usize>(&mut self, words: &'a [u32]) -> bool {
        Bytes::<Runs>::run::<WIDTH>(&mut self.counted, words)
    }

    #[inline(always)]
    fn described(&mut self, table: &Runs, end: usize, length: usize) {
        if length == self.label.len() && same(&table.bodies[end - length..end], self.label) {
            self.entries += 1;
        }
    }
}

fn same(chars: &[u32], label: &[u16]) -> bool {
    chars.len() == label.len() && chars.iter().zip(label).all(|(char, wanted)| *char == u32::from(*wanted))
}

/// A good table, and the label that is looked for.
struct Search<'a> {
    table: Runs<'a>,
    label: &'a [u16],
}

impl Search<'_> {
    /// How many entries there are, if the runs are a table that an acceptable file gives.
    fn count(&self) -> Option<usize> {
        let matched = from_table::walk(FromTable::new(self.table, Matched::new(self.label)))?;
        (matched.counted.bytes <= LONGEST_FILE).then_some(matched.entries)
    }

    /// Whether the object of a row has the label, in a version with descriptions.
    #[inline(always)]
    fn has_label(&self, row: usize, words: &[u32]) -> bool {
        let [kind, parent, start, length] = [0, 1, 2, 3].map(|word| words[word] as usize);
        if kind == GROUP as usize {
            // n, flow frame flag and the description's length stand before its chars.
            return length == 3 + self.label.len()
                && same(&self.table.bodies[start + 3..start + length], self.label);
        }
        // A longer description may end like the label and its length, so a walk has to tell where it begins.
        ends_like(&self.table.bodies[start..start + length], self.label)
            && self.walk_finds_label(row, start, parent)
    }

    fn walk_finds_label(&self, row: usize, start: usize, parent: usize) -> bool {
        let from = FromTable::new(self.table, Matched::new(self.label)).at_row(row, start);
        // The depth does not matter for an object that is no group, but that it is not the outer one.
        from_table::walk_object(from, parent, 2).is_some_and(|matched| matched.entries == 1)
    }
}

/// Whether a body ends with the label's length and chars.
fn ends_like(body: &[u32], label: &[u16]) -> bool {
    let Some(length_at) = body.len().checked_sub(label.len() + 1) else {
        return false;
    };
    body[length_at] as usize == label.len() && same(&body[length_at + 1..], label)
}

/// The list call.
pub fn list(contents: &[u32], bodies: &[u32], label: &[u16], entries: &mut [u32]) -> Answer {
    let search = Search { table: Runs { contents, bodies }, label };
    let Some(count) = search.count() else {
        return Answer::refused(16, 0);
    };
    if entries.len() < count {
        return Answer::refused(18, count as u32);
    }
    let all = count == contents.len() / ROW;
    let rows = contents.chunks_exact(ROW).enumerate();
    let found = rows.filter(|(row, words)| all || search.has_label(*row, words));
    for (entry, (row, _)) in entries[..count].iter_mut().zip(found) {
        *entry = row as u32;
    }
    Answer::new(0, 0, count as u32, 0)
}
