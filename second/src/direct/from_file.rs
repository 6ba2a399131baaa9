//! The walk over a file, into nothing or into the words of a table. Inlined by order, since that saves a fifth of the instructions.

use super::walk::{self, kind_fault, Opened, Walk, BITMAP, GROUP, LAST_MINOR, PATH, TEXT, TEXT_PATH};
use crate::read::Refusal;
use crate::table::ROW;

/// Where words and rows go.
pub trait Words {
    fn word(&mut self, word: u32);
    /// The words of a run of fields of this width.
    fn run<const WIDTH: usize>(&mut self, bytes: &[u8]);
    /// How many words there are so far.
    fn words(&self) -> usize;
    /// A row more; its number.
    fn open(&mut self) -> usize;
    fn close(&mut self, row: usize, words: [u32; ROW]);
}

#[derive(Default)]
pub struct Counted {
    pub rows: usize,
    pub words: usize,
}

impl Words for Counted {
    #[inline(always)]
    fn word(&mut self, _word: u32) {
        self.words += 1;
    }

    #[inline(always)]
    fn run<const WIDTH: usize>(&mut self, bytes: &[u8]) {
        self.words += if WIDTH == 8 { bytes.len() / 4 } else { bytes.len() / WIDTH };
    }

    fn words(&self) -> usize {
        self.words
    }

    #[inline(always)]
    fn open(&mut self) -> usize {
        self.rows += 1;
        self.rows - 1
    }

    fn close(&mut self, _row: usize, _words: [u32; ROW]) {}
}

pub struct Stored<'a> {
    contents: &'a mut [u32],
    bodies: &'a mut [u32],
    rows: usize,
    words: usize,
}

impl<'a> Stored<'a> {
    pub fn new(contents: &'a mut [u32], bodies: &'a mut [u32]) -> Stored<'a> {
        Stored { contents, bodies, rows: 0, words: 0 }
    }
}

impl Words for Stored<'_> {
    #[inline(always)]
    fn word(&mut self, word: u32) {
        self.bodies[self.words] = word;
        self.words += 1;
    }

    #[inline(always)]
    fn run<const WIDTH: usize>(&mut self, bytes: &[u8]) {
        let width = if WIDTH == 8 { 4 } else { WIDTH };
        let count = bytes.len() / width;
        let words = &mut self.bodies[self.words..self.words + count];
        if WIDTH == 2 {
            for (word, char) in words.iter_mut().zip(bytes.chunks_exact(2)) {
                *word = u32::from(u16::from_be_bytes([char[0], char[1]]));
            }
        } else {
            for (word, four) in words.iter_mut().zip(bytes.chunks_exact(4)) {
                *word = u32::from_be_bytes([four[0], four[1], four[2], four[3]]);
            }
        }
        self.words += count;
    }

    fn words(&self) -> usize {
        self.words
    }

    #[inline(always)]
    fn open(&mut self) -> usize {
        self.rows += 1;
        self.rows - 1
    }

    fn close(&mut self, row: usize, words: [u32; ROW]) {
        self.contents[row * ROW..][..ROW].copy_from_slice(&words);
    }
}

pub struct FromFile<'a, W> {
    file: &'a [u8],
    at: usize,
    out: W,
}

impl<'a, W: Words> FromFile<'a, W> {
    pub fn new(file: &'a [u8], out: W) -> FromFile<'a, W> {
        FromFile { file, at: 0, out }
    }

    fn refusal(&self, number: u32) -> Refusal {
        Refusal { number, offset: self.at as u32 }
    }

    /// A field that has no word of its own in the table, or not here.
    fn take<const WIDTH: usize>(
        &mut self,
        fault: impl FnOnce([u8; WIDTH]) -> u32,
    ) -> Result<[u8; WIDTH], Refusal> {
        let Some(bytes) = self.file.get(self.at..).and_then(|rest| rest.first_chunk::<WIDTH>()) else {
            return Err(self.refusal(2));
        };
        match fault(*bytes) {
            0 => {
                self.at += WIDTH;
                Ok(*bytes)
            }
            number => Err(self.refusal(number)),
        }
    }

    #[inline(always)]
    fn take_word<const WIDTH: usize>(&mut self, fault: impl FnOnce(u32) -> u32) -> Result<u32, Refusal> {
        self.take::<WIDTH>(|bytes| fault(bits(bytes))).map(bits)
    }
}

fn bits<const WIDTH: usize>(bytes: [u8; WIDTH]) -> u32 {
    bytes.into_iter().fold(0, |bits, byte| bits << 8 | u32::from(byte))
}

impl<W: Words> Walk for FromFile<'_, W> {
    type Stop = Refusal;

    #[inline(always)]
    fn field<const WIDTH: usize>(&mut self, fault: impl FnOnce(u32) -> u32) -> Result<u32, Refusal> {
        let word = self.take_word::<WIDTH>(fault)?;
        self.out.word(word);
        Ok(word)
    }

    /// Any byte but 0 is true, and its word is 1.
    #[inline(always)]
    fn flag(&mut self, of_true: u32) -> Result<bool, Refusal> {
        let [byte] = self.take::<1>(|[byte]| if byte == 0 { 0 } else { of_true })?;
        self.out.word(u32::from(byte != 0));
        Ok(byte != 0)
    }

    #[inline(always)]
    fn double(&mut self, fault: impl FnOnce(u64) -> u32) -> Result<u64, Refusal> {
        let double = u64::from_be_bytes(self.take::<8>(|bytes| fault(u64::from_be_bytes(bytes)))?);
        self.out.word((double >> 32) as u32);
        self.out.word(double as u32);
        Ok(double)
    }

    #[inline(always)]
    fn run<const WIDTH: usize>(&mut self, count: usize) -> Result<(), Refusal> {
        let rest = &self.file[self.at..];
        match rest.get(..count * WIDTH) {
            Some(bytes) => {
                self.at += bytes.len();
                self.out.run::<WIDTH>(bytes);
                Ok(())
            }
            None => {
                // 2 at the field that is missing or cut.
                self.at += rest.len() / WIDTH * WIDTH;
                Err(self.refusal(2))
            }
        }
    }

    #[inline(always)]
    fn open(&mut self, minor: u32, _parent: usize, depth: u32) -> Result<Opened, Refusal> {
        let mut kind = 0;
        self.take_word::<2>(|bits| {
            kind = match u8::try_from(bits) {
                Ok(b'G') => GROUP,
                Ok(b'P') => PATH,
                Ok(b'T') => TEXT,
                Ok(b'I') => BITMAP,
                Ok(b'X') => TEXT_PATH,
                _ => return 7,
            };
            kind_fault(kind, minor, depth)
        })?;
        let row = self.out.open();
        Ok(Opened { row, kind, start: self.out.words() })
    }

    #[inline(always)]
    fn members(&mut self, _opened: &Opened) -> Result<u32, Refusal> {
        self.take_word::<4>(|bits| if bits.cast_signed() < 0 { 8 } else { 0 })
    }

    #[inline(always)]
    fn members_done(&mut self, opened: &mut Opened, n: u32) -> Result<(), Refusal> {
        opened.start = self.out.words();
        self.out.word(n);
        Ok(())
    }

    #[inline(always)]
    fn close(&mut self, opened: Opened, parent: usize) -> Result<(), Refusal> {
        let length = self.out.words() - opened.start;
        self.out.close(opened.row, [opened.kind, parent as u32, opened.start as u32, length as u32]);
        Ok(())
    }
}

/// The last char of the last version.
const LAST_DIGIT: u8 = b'0' + LAST_MINOR;

/// The whole file.
pub fn walk<W: Words>(mut from: FromFile<W>) -> Result<W, Refusal> {
    from.take::<6>(|bytes| if bytes == *b"\0J\0D\0R" { 0 } else { 3 })?;
    from.take_word::<4>(|length| if length == 3 { 0 } else { 4 })?;
    let version = from.take::<6>(|bytes| match bytes {
        [0, b'1', 0, b'.', 0, b'0'..=LAST_DIGIT] => 0,
        _ => 4,
    })?;
    let minor = u32::from(version[5] - b'0');
    from.out.word(minor);
    walk::settings(&mut from, minor)?;
    walk::object(&mut from, minor, 0, 1)?;
    if from.at < from.file.len() {
        return Err(from.refusal(13));
    }
    Ok(from.out)
}
