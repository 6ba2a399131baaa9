//! The walk over a table, wherever its words lie, into nothing or into the bytes of a file. Inlined by order, as the walk over a file is.

use super::source::{Run, Runs, Source};
use super::walk::{self, kind_fault, Opened, Walk, GROUP, LAST_MINOR};

/// Where the bytes of a table go.
pub trait Bytes<S: Source> {
    fn field<const WIDTH: usize>(&mut self, bits: u32);
    /// The bytes of the words of a run; words of width 8 are halves of doubles. False where a word is no value of its field.
    fn run<const WIDTH: usize>(&mut self, words: S::Run) -> bool;
    /// An object's description is so many words of the table, and ends before the one at `end`. They are taken only by who wants them.
    #[inline(always)]
    fn described(&mut self, _table: &S, _end: usize, _length: usize) {}
    /// The points of this row's outline begin with the word at `at`; it has so many segments.
    #[inline(always)]
    fn outlined(&mut self, _row: usize, _at: usize, _segments: u32) {}
}

#[derive(Default)]
pub struct Counted {
    pub bytes: usize,
}

impl<S: Source> Bytes<S> for Counted {
    #[inline(always)]
    fn field<const WIDTH: usize>(&mut self, _bits: u32) {
        self.bytes += WIDTH;
    }

    #[inline(always)]
    fn run<const WIDTH: usize>(&mut self, words: S::Run) -> bool {
        self.bytes += words.words() * WIDTH.min(4);
        WIDTH != 2 || words.bits() <= 0xFFFF
    }
}

pub struct Stored<'a> {
    file: &'a mut [u8],
    at: usize,
}

impl<'a> Stored<'a> {
    pub fn new(file: &'a mut [u8]) -> Stored<'a> {
        Stored { file, at: 0 }
    }
}

impl Bytes<Runs<'_>> for Stored<'_> {
    #[inline(always)]
    fn field<const WIDTH: usize>(&mut self, bits: u32) {
        let bytes = bits.to_be_bytes();
        self.file[self.at..][..WIDTH].copy_from_slice(&bytes[4 - WIDTH..]);
        self.at += WIDTH;
    }

    #[inline(always)]
    fn run<const WIDTH: usize>(&mut self, words: &[u32]) -> bool {
        let count = words.len() * WIDTH.min(4);
        let bytes = &mut self.file[self.at..][..count];
        if WIDTH == 2 {
            for (char, word) in bytes.chunks_exact_mut(2).zip(words) {
                char.copy_from_slice(&(*word as u16).to_be_bytes());
            }
        } else {
            for (four, word) in bytes.chunks_exact_mut(4).zip(words) {
                four.copy_from_slice(&word.to_be_bytes());
            }
        }
        self.at += count;
        true
    }
}

pub struct FromTable<S, B> {
    table: S,
    /// The next row, and the next word.
    row: usize,
    at: usize,
    out: B,
}

/// No acceptable file gives this table.
pub struct NoTable;

impl<S: Source, B: Bytes<S>> FromTable<S, B> {
    pub fn new(table: S, out: B) -> FromTable<S, B> {
        FromTable { table, row: 0, at: 0, out }
    }

    /// A walk that begins with this row, whose body starts here.
    pub fn at_row(self, row: usize, start: usize) -> FromTable<S, B> {
        FromTable { row, at: start, ..self }
    }

    #[inline(always)]
    fn word(&mut self) -> Result<u32, NoTable> {
        let word = self.table.word(self.at).ok_or(NoTable)?;
        self.at += 1;
        Ok(word)
    }
}

fn only_if(good: bool) -> Result<(), NoTable> {
    if good {
        Ok(())
    } else {
        Err(NoTable)
    }
}

impl<S: Source, B: Bytes<S>> Walk for FromTable<S, B> {
    type Stop = NoTable;

    #[inline(always)]
    fn field<const WIDTH: usize>(&mut self, fault: impl FnOnce(u32) -> u32) -> Result<u32, NoTable> {
        let word = self.word()?;
        only_if((WIDTH == 4 || word >> (8 * WIDTH) == 0) && fault(word) == 0)?;
        self.out.field::<WIDTH>(word);
        Ok(word)
    }

    /// A word is 0 or 1, and no other.
    #[inline(always)]
    fn flag(&mut self, of_true: u32) -> Result<bool, NoTable> {
        let word = self.word()?;
        only_if(word == 0 || (word == 1 && of_true == 0))?;
        self.out.field::<1>(word);
        Ok(word == 1)
    }

    #[inline(always)]
    fn double(&mut self, fault: impl FnOnce(u64) -> u32) -> Result<u64, NoTable> {
        let (high, low) = (self.word()?, self.word()?);
        let double = u64::from(high) << 32 | u64::from(low);
        only_if(fault(double) == 0)?;
        self.out.field::<4>(high);
        self.out.field::<4>(low);
        Ok(double)
    }

    #[inline(always)]
    fn run<const WIDTH: usize>(&mut self, count: usize) -> Result<(), NoTable> {
        let words = if WIDTH == 8 { 2 * count } else { count };
        let run = self.table.run(self.at, words).ok_or(NoTable)?;
        self.at += words;
        only_if(self.out.run::<WIDTH>(run))
    }

    #[inline(always)]
    fn open(&mut self, minor: u32, parent: usize, depth: u32) -> Result<Opened, NoTable> {
        let row = self.row;
        let [kind, its_parent, start, _] = self.table.row(row).ok_or(NoTable)?;
        only_if(kind_fault(kind, minor, depth) == 0 && its_parent as usize == parent)?;
        only_if(kind == GROUP || start as usize == self.at)?;
        self.row += 1;
        self.out.field::<2>(u32::from(b"GPTIX"[kind as usize - 1]));
        Ok(Opened { row, kind, start: start as usize })
    }

    #[inline(always)]
    fn members(&mut self, opened: &Opened) -> Result<u32, NoTable> {
        let n = self.table.word(opened.start).ok_or(NoTable)?;
        only_if(n.cast_signed() >= 0)?;
        self.out.field::<4>(n);
        Ok(n)
    }

    #[inline(always)]
    fn members_done(&mut self, opened: &mut Opened, _n: u32) -> Result<(), NoTable> {
        only_if(opened.start == self.at)?;
        self.at += 1;
        Ok(())
    }

    #[inline(always)]
    fn described(&mut self, length: usize) {
        self.out.described(&self.table, self.at, length);
    }

    #[inline(always)]
    fn outlined(&mut self, segments: u32) {
        // The row of the outline is the last that was opened.
        self.out.outlined(self.row - 1, self.at, segments);
    }

    #[inline(always)]
    fn close(&mut self, opened: Opened, _parent: usize) -> Result<(), NoTable> {
        let length = self.table.length(opened.row).ok_or(NoTable)?;
        only_if(length as usize == self.at - opened.start)
    }
}

/// An object of a table that is good, and all that it holds.
pub fn walk_object<S, B>(mut from: FromTable<S, B>, parent: usize, depth: u32) -> Option<B>
where
    S: Source,
    B: Bytes<S>,
{
    let minor = from.table.word(0)?;
    walk::object(&mut from, minor, parent, depth).ok()?;
    Some(from.out)
}

/// The whole table.
pub fn walk<S: Source, B: Bytes<S>>(mut from: FromTable<S, B>) -> Option<B> {
    let minor = from.word().ok().filter(|minor| *minor <= u32::from(LAST_MINOR))?;
    for char in *b"JDR" {
        from.out.field::<2>(u32::from(char));
    }
    from.out.field::<4>(3);
    for char in [b'1', b'.', b'0' + minor as u8] {
        from.out.field::<2>(u32::from(char));
    }
    walk::settings(&mut from, minor).ok()?;
    walk::object(&mut from, minor, 0, 1).ok()?;
    from.table.has_exactly(from.row, from.at).then_some(from.out)
}
