//! One field at a time (01, 'Fields'), each judged where it stands (01, 'Numbers given back').
//!
//! Every function here first takes the field's bytes, so that for one field 2 comes before all.

use crate::model::{Chars, Double, Float, Point, Transformation};

/// Why a file is refused: 01's number, and the first byte of the field at fault.
#[derive(Clone, Copy, Debug, PartialEq, Eq)]
pub struct Refusal {
    pub number: u32,
    pub offset: u32,
}

pub type Taken<T> = Result<T, Refusal>;

/// The file and the place of the next field.
pub struct Source<'a> {
    file: &'a [u8],
    at: usize,
}

pub fn refusal(number: u32, offset: usize) -> Refusal {
    // A file has at most 65,535 bytes here, so its offsets fit.
    Refusal { number, offset: offset as u32 }
}

impl<'a> Source<'a> {
    pub fn new(file: &'a [u8]) -> Source<'a> {
        Source { file, at: 0 }
    }

    /// The offset of the next field.
    pub fn at(&self) -> usize {
        self.at
    }

    pub fn has_more(&self) -> bool {
        self.at < self.file.len()
    }

    /// The next field's bytes; 2 if the file ends before or within it.
    fn take<const N: usize>(&mut self) -> Taken<[u8; N]> {
        match self.file[self.at..].first_chunk::<N>() {
            Some(bytes) => {
                self.at += N;
                Ok(*bytes)
            }
            None => Err(refusal(2, self.at)),
        }
    }

    /// Three chars that are one field: `JDR` and the version.
    pub fn three_chars(&mut self) -> Taken<[u16; 3]> {
        let [a, b, c, d, e, f] = self.take::<6>()?;
        Ok([[a, b], [c, d], [e, f]].map(u16::from_be_bytes))
    }

    /// Any integer.
    pub fn integer(&mut self) -> Taken<i32> {
        self.take::<4>().map(i32::from_be_bytes)
    }

    /// An integer from `low` to `high`: otherwise 6.
    pub fn integer_within(&mut self, low: i32, high: i32) -> Taken<i32> {
        let offset = self.at;
        let value = self.integer()?;
        if !(low..=high).contains(&value) {
            return Err(refusal(6, offset));
        }
        Ok(value)
    }

    /// A count or length of at least `least`: otherwise 8.
    pub fn count(&mut self, least: i32) -> Taken<i32> {
        let offset = self.at;
        let value = self.integer()?;
        if value < least {
            return Err(refusal(8, offset));
        }
        Ok(value)
    }

    /// The dash count, even and not negative: otherwise 8.
    pub fn dash_count(&mut self) -> Taken<i32> {
        let offset = self.at;
        let value = self.count(0)?;
        if value % 2 != 0 {
            return Err(refusal(8, offset));
        }
        Ok(value)
    }

    /// A byte, 8-bit two's complement, from `low` to `high`: otherwise 6.
    pub fn byte(&mut self, low: i8, high: i8) -> Taken<u8> {
        let offset = self.at;
        let value = self.take::<1>().map(i8::from_be_bytes)?;
        if !(low..=high).contains(&value) {
            return Err(refusal(6, offset));
        }
        Ok(value.cast_unsigned())
    }

    /// A flag: 'any byte that is not 0' is true (02, R-4), so 5 is never given.
    pub fn flag(&mut self) -> Taken<bool> {
        let [byte] = self.take::<1>()?;
        Ok(byte != 0)
    }

    /// The flow frame flag: 11 where it is true.
    pub fn flow_flag(&mut self) -> Taken<()> {
        let offset = self.at;
        if self.flag()? {
            return Err(refusal(11, offset));
        }
        Ok(())
    }

    fn char(&mut self) -> Taken<u16> {
        self.take::<2>().map(u16::from_be_bytes)
    }

    /// One of the chars that are allowed here in this version: otherwise 7.
    pub fn letter(&mut self, allowed: &[u8]) -> Taken<u8> {
        let offset = self.at;
        let char = self.char()?;
        let letter = allowed.iter().find(|letter| u16::from(**letter) == char);
        letter.copied().ok_or(refusal(7, offset))
    }

    /// A string of at least `least` chars. No length is compared with the bytes left, so a string
    /// that is cut is 2 at the char that is missing.
    pub fn string(&mut self, least: i32) -> Taken<Chars> {
        let length = self.count(least)?;
        let mut chars = Chars::new();
        for _ in 0..length {
            chars.push(self.char()?);
        }
        Ok(chars)
    }

    /// A float of any bits.
    pub fn float(&mut self) -> Taken<Float> {
        self.take::<4>().map(u32::from_be_bytes)
    }

    /// A paint component, 0 to 1: otherwise 9. A NaN is in no range, -0 is in this one.
    pub fn component(&mut self) -> Taken<Float> {
        let offset = self.at;
        let bits = self.float()?;
        if !(0.0..=1.0).contains(&f32::from_bits(bits)) {
            return Err(refusal(9, offset));
        }
        Ok(bits)
    }

    /// A hue, 'from 0 up to but not 360': otherwise 9.
    pub fn hue(&mut self) -> Taken<Float> {
        let offset = self.at;
        let bits = self.float()?;
        if !(0.0..360.0).contains(&f32::from_bits(bits)) {
            return Err(refusal(9, offset));
        }
        Ok(bits)
    }

    /// So many paint components.
    pub fn components<const N: usize>(&mut self) -> Taken<[Float; N]> {
        let mut components = [0; N];
        for component in &mut components {
            *component = self.component()?;
        }
        Ok(components)
    }

    /// A double of any bits.
    pub fn double(&mut self) -> Taken<Double> {
        self.take::<8>().map(u64::from_be_bytes)
    }

    /// A point of any bits; each double is a field.
    pub fn point(&mut self) -> Taken<Point> {
        Ok(Point { x: self.double()?, y: self.double()? })
    }

    /// A double that has to have the bits of `before`: otherwise 12.
    pub fn joined(&mut self, before: Double) -> Taken<()> {
        let offset = self.at;
        if self.double()? != before {
            return Err(refusal(12, offset));
        }
        Ok(())
    }

    /// Six doubles, each a field.
    pub fn transformation(&mut self) -> Taken<Transformation> {
        let mut doubles = [0; 6];
        for double in &mut doubles {
            *double = self.double()?;
        }
        Ok(doubles)
    }
}
