//! What the calls give back (01, 'Numbers given back'), shaped as the C interface has it.

/// Every answer is a number, an offset, a row count and a word count.
#[repr(C)]
#[derive(Clone, Copy, Debug, Default, PartialEq, Eq)]
pub struct Answer {
    pub number: u32,
    pub offset: u32,
    pub rows: u32,
    pub words: u32,
}

impl Answer {
    pub fn new(number: u32, offset: u32, rows: u32, words: u32) -> Answer {
        Answer { number, offset, rows, words }
    }

    /// A refusal whose counts are 0.
    pub fn refused(number: u32, offset: u32) -> Answer {
        Answer::new(number, offset, 0, 0)
    }
}

/// A plain paint. Kind: 0 transparent, 1 RGB, 2 CMYK, 3 grey, 4 HSB; unused components are +0.
#[repr(C)]
#[derive(Clone, Copy, Debug, Default)]
pub struct Color {
    pub kind: u32,
    pub c: [f32; 5],
}

/// The answer of the paint question. Form: 0 plain, 1 linear, 2 radial.
#[repr(C)]
#[derive(Clone, Copy, Debug, Default)]
pub struct PaintAnswer {
    pub number: u32,
    pub form: u32,
    pub place: u32,
    pub first: Color,
    pub second: Color,
}

/// The answer of the text question: places in the whole run of bodies.
#[repr(C)]
#[derive(Clone, Copy, Debug, Default, PartialEq, Eq)]
pub struct TextAnswer {
    pub number: u32,
    pub alternative_start: u32,
    pub alternative_length: u32,
    pub text_start: u32,
    pub text_length: u32,
}

/// The answer of the description question: a place in the whole run of bodies.
#[repr(C)]
#[derive(Clone, Copy, Debug, Default, PartialEq, Eq)]
pub struct DescriptionAnswer {
    pub number: u32,
    pub start: u32,
    pub length: u32,
}

/// The answer of the box question: the least x and y, then the greatest x and y.
#[repr(C)]
#[derive(Clone, Copy, Debug, Default)]
pub struct BoxAnswer {
    pub number: u32,
    pub left: f64,
    pub bottom: f64,
    pub right: f64,
    pub top: f64,
}

impl PaintAnswer {
    /// With a refusal the paint is transparent and all else 0.
    pub fn refused(number: u32) -> PaintAnswer {
        PaintAnswer { number, ..PaintAnswer::default() }
    }

    /// The struct's words in order, floats as their bits: -0 and 0 differ.
    pub fn words(&self) -> [u32; 15] {
        let mut words = [0; 15];
        words[..3].copy_from_slice(&[self.number, self.form, self.place]);
        words[3..9].copy_from_slice(&self.first.words());
        words[9..].copy_from_slice(&self.second.words());
        words
    }
}

impl Color {
    fn words(&self) -> [u32; 6] {
        let [a, b, c, d, e] = self.c.map(f32::to_bits);
        [self.kind, a, b, c, d, e]
    }
}

impl TextAnswer {
    /// With a refusal the places are 0.
    pub fn refused(number: u32) -> TextAnswer {
        TextAnswer { number, ..TextAnswer::default() }
    }

    /// The struct's words in order.
    pub fn words(&self) -> [u32; 5] {
        [self.number, self.alternative_start, self.alternative_length, self.text_start, self.text_length]
    }
}

impl DescriptionAnswer {
    /// With a refusal the place is 0.
    pub fn refused(number: u32) -> DescriptionAnswer {
        DescriptionAnswer { number, ..DescriptionAnswer::default() }
    }

    /// The struct's words in order.
    pub fn words(&self) -> [u32; 3] {
        [self.number, self.start, self.length]
    }
}

impl BoxAnswer {
    /// With a refusal the box is of positive zeros.
    pub fn refused(number: u32) -> BoxAnswer {
        BoxAnswer { number, ..BoxAnswer::default() }
    }

    /// The number, then the bits of the four doubles, high half first: -0 and 0 differ.
    pub fn words(&self) -> [u32; 9] {
        let mut words = [self.number; 9];
        let sides = [self.left, self.bottom, self.right, self.top];
        for (halves, side) in words[1..].chunks_exact_mut(2).zip(sides) {
            let bits = side.to_bits();
            halves.copy_from_slice(&[(bits >> 32) as u32, bits as u32]);
        }
        words
    }
}
