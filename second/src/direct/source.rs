//! Where the words of a table lie that a walk passes over: in two runs, or in the bytes of a sheet.

use crate::sheet::{EDITION, WORD};
use crate::table::ROW;

pub trait Source {
    /// Words of the bodies that stand together.
    type Run: Run;

    /// The words of a row, if there is one.
    fn row(&self, row: usize) -> Option<[u32; ROW]>;

    /// The last of them alone, the length of the row's body.
    fn length(&self, row: usize) -> Option<u32>;

    /// A word of the bodies, if there is one.
    fn word(&self, at: usize) -> Option<u32>;

    /// So many words of the bodies, from this one on, if they are all there.
    fn run(&self, at: usize, count: usize) -> Option<Self::Run>;

    /// Whether there are just so many rows and words.
    fn has_exactly(&self, rows: usize, words: usize) -> bool;
}

pub trait Run: Copy {
    /// How many words they are.
    fn words(self) -> usize;

    /// The bits that any of them has.
    fn bits(self) -> u32;
}

/// A table in two runs of words.
#[derive(Clone, Copy)]
pub struct Runs<'a> {
    pub contents: &'a [u32],
    pub bodies: &'a [u32],
}

impl Run for &[u32] {
    #[inline(always)]
    fn words(self) -> usize {
        self.len()
    }

    #[inline(always)]
    fn bits(self) -> u32 {
        self.iter().fold(0, |all, word| all | word)
    }
}

impl<'a> Source for Runs<'a> {
    type Run = &'a [u32];

    #[inline(always)]
    fn row(&self, row: usize) -> Option<[u32; ROW]> {
        self.contents.get(row * ROW..)?.first_chunk().copied()
    }

    #[inline(always)]
    fn length(&self, row: usize) -> Option<u32> {
        self.contents.get(row * ROW + 3).copied()
    }

    #[inline(always)]
    fn word(&self, at: usize) -> Option<u32> {
        self.bodies.get(at).copied()
    }

    #[inline(always)]
    fn run(&self, at: usize, count: usize) -> Option<&'a [u32]> {
        self.bodies.get(at..)?.get(..count)
    }

    #[inline(always)]
    fn has_exactly(&self, rows: usize, words: usize) -> bool {
        self.contents.len() == rows * ROW && self.bodies.len() == words
    }
}

/// The bytes of a count or a contents number, and those of a row.
const NUMBER: usize = EDITION.width;
const ROW_BYTES: usize = ROW * NUMBER;

/// A table in the bytes of a sheet, whose length is the one that its counts say.
#[derive(Clone, Copy)]
pub struct Sheet<'a> {
    pub contents: &'a [u8],
    pub bodies: &'a [u8],
}

impl<'a> Sheet<'a> {
    pub fn new(sheet: &'a [u8]) -> Option<Sheet<'a>> {
        let (counts, rest) = sheet.split_at_checked(EDITION.contents_at())?;
        let [rows, words] = [0, NUMBER].map(|at| number(&counts[at..at + NUMBER]) as usize);
        if sheet.len() != EDITION.length(rows, words) {
            return None;
        }
        let (contents, bodies) = rest.split_at(rows * ROW_BYTES);
        Some(Sheet { contents, bodies })
    }

    pub fn rows(&self) -> usize {
        self.contents.len() / ROW_BYTES
    }

    pub fn words(&self) -> usize {
        self.bodies.len() / WORD
    }
}

/// The number that these bytes spell, the highest first; their count is known where this is inlined.
#[inline(always)]
pub fn number(bytes: &[u8]) -> u32 {
    bytes.iter().fold(0, |number, byte| number << 8 | u32::from(*byte))
}

/// Words in the bytes of a sheet.
#[derive(Clone, Copy)]
pub struct Spelled<'a>(&'a [u8]);

impl Run for Spelled<'_> {
    #[inline(always)]
    fn words(self) -> usize {
        self.0.len() / WORD
    }

    /// The bytes are put in order only once.
    #[inline(always)]
    fn bits(self) -> u32 {
        let mut all = 0;
        for word in self.0.chunks_exact(WORD) {
            all |= u32::from_ne_bytes([word[0], word[1], word[2], word[3]]);
        }
        u32::from_be(all)
    }
}

impl<'a> Source for Sheet<'a> {
    type Run = Spelled<'a>;

    #[inline(always)]
    fn row(&self, row: usize) -> Option<[u32; ROW]> {
        let bytes = self.contents.get(row * ROW_BYTES..)?.first_chunk::<ROW_BYTES>()?;
        Some([0, 1, 2, 3].map(|word| number(&bytes[word * NUMBER..][..NUMBER])))
    }

    #[inline(always)]
    fn length(&self, row: usize) -> Option<u32> {
        Some(number(self.contents.get((row * ROW + 3) * NUMBER..)?.first_chunk::<NUMBER>()?))
    }

    #[inline(always)]
    fn word(&self, at: usize) -> Option<u32> {
        Some(u32::from_be_bytes(*self.bodies.get(at * WORD..)?.first_chunk()?))
    }

    #[inline(always)]
    fn run(&self, at: usize, count: usize) -> Option<Spelled<'a>> {
        self.bodies.get(at * WORD..)?.get(..count * WORD).map(Spelled)
    }

    #[inline(always)]
    fn has_exactly(&self, rows: usize, words: usize) -> bool {
        self.rows() == rows && self.words() == words
    }
}
