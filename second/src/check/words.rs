//! The bodies as fields one after the other: one word each, two for a double.
//!
//! Nothing is judged here but what decides how many words follow; None where words are missing or
//! a word is no value of its field at all.

use crate::model::{Chars, Double, Float, Point, Transformation};

pub struct Words<'a> {
    words: &'a [u32],
}

impl<'a> Words<'a> {
    pub fn new(words: &'a [u32]) -> Words<'a> {
        Words { words }
    }

    /// The next word; also any float.
    pub fn word(&mut self) -> Option<u32> {
        let (first, rest) = self.words.split_first()?;
        self.words = rest;
        Some(*first)
    }

    pub fn integer(&mut self) -> Option<i32> {
        self.word().map(u32::cast_signed)
    }

    pub fn byte(&mut self) -> Option<u8> {
        u8::try_from(self.word()?).ok()
    }

    pub fn flag(&mut self) -> Option<bool> {
        match self.word()? {
            0 => Some(false),
            1 => Some(true),
            _ => None,
        }
    }

    /// A char that decides what follows it.
    pub fn letter(&mut self) -> Option<u8> {
        self.byte()
    }

    /// So many words, if they are there.
    fn run(&mut self, count: u32) -> Option<&'a [u32]> {
        let (run, rest) = self.words.split_at_checked(usize::try_from(count).ok()?)?;
        self.words = rest;
        Some(run)
    }

    pub fn floats(&mut self, count: u32) -> Option<Vec<Float>> {
        Some(self.run(count)?.to_vec())
    }

    pub fn array<const N: usize>(&mut self) -> Option<[Float; N]> {
        self.run(N as u32)?.try_into().ok()
    }

    pub fn string(&mut self) -> Option<Chars> {
        let length = self.word()?;
        self.run(length)?.iter().map(|word| u16::try_from(*word).ok()).collect()
    }

    /// High half first.
    pub fn double(&mut self) -> Option<Double> {
        let high = self.word()?;
        let low = self.word()?;
        Some(u64::from(high) << 32 | u64::from(low))
    }

    pub fn point(&mut self) -> Option<Point> {
        Some(Point { x: self.double()?, y: self.double()? })
    }

    pub fn transformation(&mut self) -> Option<Transformation> {
        let mut doubles = [0; 6];
        for double in &mut doubles {
            *double = self.double()?;
        }
        Some(doubles)
    }
}
