//! Field values of every sort: the ends of each range, and bits that are easily lost on the way.

use super::Maker;
use crate::model::{Chars, Double, Float, Point, Transformation};

/// Floats that are free: zeros, ones, infinities, quiet and signalling NaNs with payloads.
const FLOATS: [Float; 12] = [
    0x0000_0000,
    0x8000_0000,
    0x3F80_0000,
    0xBF80_0000,
    0x0000_0001,
    0x7F80_0000,
    0xFF80_0000,
    0x7FC0_0000,
    0x7FC1_2345,
    0xFFFF_FFFF,
    0x7F80_0001,
    0xFFA0_5A5A,
];

/// Doubles that are free, of the same sorts; some have only one half that is not 0.
const DOUBLES: [Double; 14] = [
    0x0000_0000_0000_0000,
    0x8000_0000_0000_0000,
    0x3FF0_0000_0000_0000,
    0xBFF0_0000_0000_0000,
    0x0000_0000_0000_0001,
    0x0000_0000_FFFF_FFFF,
    0x7FF0_0000_0000_0000,
    0xFFF0_0000_0000_0000,
    0x7FF8_0000_0000_0000,
    0x7FF8_0000_0001_2345,
    0xFFFF_FFFF_FFFF_FFFF,
    0x7FF0_0000_0000_0001,
    0xFFF4_5A5A_A5A5_0F0F,
    0x7FF0_0001_0000_0000,
];

/// Quiet and signalling NaNs with payloads, where nothing but the bits tells them apart.
const NAN_FLOATS: [Float; 6] = [0x7FC0_0000, 0x7FC1_2345, 0xFFFF_FFFF, 0x7F80_0001, 0xFFA0_5A5A, 0x7FA0_0000];

const NAN_DOUBLES: [Double; 7] = [
    0x7FF0_0000_0000_0001,
    0xFFF0_0000_0000_0001,
    0x7FF8_0000_DEAD_BEEF,
    0xFFFF_FFFF_FFFF_FFFF,
    0x7FF4_0000_0000_0000,
    0x7FF0_0001_0000_0000,
    0xFFF4_5A5A_A5A5_0F0F,
];

/// Components at the ends of their range: 0, -0, 1, and their neighbours inside it.
const COMPONENTS: [Float; 7] =
    [0x0000_0000, 0x8000_0000, 0x3F80_0000, 0x3F7F_FFFF, 0x0000_0001, 0x0080_0000, 0x3F00_0000];

/// Hues at the ends of their range: 0, -0, the last float below 360, and some between.
const HUES: [Float; 7] =
    [0x0000_0000, 0x8000_0000, 0x43B3_FFFF, 0x43B3_FFFE, 0x3F80_0001, 0x4334_0000, 0x0000_0001];

/// Chars that differ most from letters.
const CHARS: [u16; 7] = [0x0000, 0xFFFF, 0xD800, 0xDFFF, 0x0100, 0x0047, 0x4700];

impl Maker {
    pub fn float(&mut self) -> Float {
        if self.only_nans {
            return *self.random.pick(&NAN_FLOATS);
        }
        match self.random.below(4) {
            0 => *self.random.pick(&FLOATS),
            1 => self.random.word(),
            _ => (self.random.within(0, 4000) as f32 / 8.0).to_bits(),
        }
    }

    pub fn double(&mut self) -> Double {
        if self.only_nans {
            return *self.random.pick(&NAN_DOUBLES);
        }
        match self.random.below(4) {
            0 => *self.random.pick(&DOUBLES),
            1 => self.random.bits(),
            _ => (self.random.within(0, 40_000) as f64 / 16.0).to_bits(),
        }
    }

    pub fn point(&mut self) -> Point {
        Point { x: self.double(), y: self.double() }
    }

    pub fn transformation(&mut self) -> Transformation {
        [(); 6].map(|()| self.double())
    }

    pub fn component(&mut self) -> Float {
        if self.random.flag() {
            *self.random.pick(&COMPONENTS)
        } else {
            // All bit patterns from +0 to 1 are floats from 0 to 1.
            self.random.within(0, 0x3F80_0000) as u32
        }
    }

    pub fn components<const N: usize>(&mut self) -> [Float; N] {
        [(); N].map(|()| self.component())
    }

    pub fn hue(&mut self) -> Float {
        if self.random.flag() {
            *self.random.pick(&HUES)
        } else {
            self.random.within(0, 0x43B3_FFFF) as u32
        }
    }

    /// An integer of any value.
    pub fn integer(&mut self) -> i32 {
        match self.random.below(4) {
            0 => *self.random.pick(&[0, 1, -1, i32::MIN, i32::MAX]),
            1 => self.random.word().cast_signed(),
            _ => self.random.within(0, 100) as i32,
        }
    }

    /// A string of at least `least` chars, most of them short.
    pub fn string(&mut self, least: usize) -> Chars {
        let most = match self.random.below(20) {
            0..=6 => 0,
            7..=15 => 5,
            16..=18 => 24,
            _ => self.longest,
        };
        let length = self.random.within(0, most).max(least);
        (0..length).map(|_| self.char()).collect()
    }

    fn char(&mut self) -> u16 {
        match self.random.below(8) {
            0 => *self.random.pick(&CHARS),
            1 => self.random.word() as u16,
            _ => u16::from(*self.random.pick(b"abcdefgh \\{}019")),
        }
    }
}
