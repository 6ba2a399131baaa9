//! The box question. The walk that judges the table notes where the row's outline stands, so that none has to look for it afterwards.

use super::from_table::{self, Bytes, Counted, FromTable};
use super::source::Runs;
use crate::answer::BoxAnswer;
use crate::table::ROW;
use crate::version::LONGEST_FILE;

/// Where the points of an outline begin, and how many segments it has.
struct Place {
    at: usize,
    segments: u32,
}

/// Counts the bytes of the file, and finds the outline of one row.
struct Found {
    counted: Counted,
    row: usize,
    outline: Option<Place>,
}

impl<'a> Bytes<Runs<'a>> for Found {
    #[inline(always)]
    fn field<const WIDTH: usize>(&mut self, bits: u32) {
        Bytes::<Runs>::field::<WIDTH>(&mut self.counted, bits);
    }

    #[inline(always)]
    fn run<const WIDTH: usize>(&mut self, words: &'a [u32]) -> bool {
        Bytes::<Runs>::run::<WIDTH>(&mut self.counted, words)
    }

    #[inline(always)]
    fn outlined(&mut self, row: usize, at: usize, segments: u32) {
        if row == self.row {
            self.outline = Some(Place { at, segments });
        }
    }
}

/// The words of a point: two doubles.
const POINT: usize = 4;

fn double(high: u32, low: u32) -> f64 {
    f64::from_bits(u64::from(high) << 32 | u64::from(low))
}

/// The box so far. A NaN replaces nothing, since it is neither less nor greater.
struct Fold {
    left: f64,
    bottom: f64,
    right: f64,
    top: f64,
    nan: bool,
}

impl Fold {
    fn first(point: &[u32]) -> Fold {
        let (x, y) = (double(point[0], point[1]), double(point[2], point[3]));
        Fold { left: x, bottom: y, right: x, top: y, nan: x.is_nan() || y.is_nan() }
    }

    #[inline(always)]
    fn take(&mut self, point: &[u32]) {
        let (x, y) = (double(point[0], point[1]), double(point[2], point[3]));
        self.left = if x < self.left { x } else { self.left };
        self.bottom = if y < self.bottom { y } else { self.bottom };
        self.right = if x > self.right { x } else { self.right };
        self.top = if y > self.top { y } else { self.top };
        self.nan |= x.is_nan() | y.is_nan();
    }
}

/// The box around an outline of a good table.
fn around(bodies: &[u32], outline: &Place) -> Fold {
    let Place { mut at, segments } = *outline;
    // Below 1.3 each segment has its own start, and the first one's is the start point. The others have the bits of the end before.
    let own_start = if bodies[0] < 3 { POINT } else { 0 };
    let start = if own_start != 0 { at + 1 } else { at };
    let mut fold = Fold::first(&bodies[start..][..POINT]);
    at += POINT - own_start;
    for _ in 0..segments {
        let points = if bodies[at] == u32::from(b'B') { 3 * POINT } else { POINT };
        at += 1 + own_start;
        bodies[at..][..points].chunks_exact(POINT).for_each(|point| fold.take(point));
        at += points;
    }
    fold
}

/// The box question.
pub fn extent(contents: &[u32], bodies: &[u32], row: u32) -> BoxAnswer {
    let row = row as usize;
    let found = Found { counted: Counted::default(), row, outline: None };
    let walked = from_table::walk(FromTable::new(Runs { contents, bodies }, found));
    let Some(found) = walked.filter(|found| found.counted.bytes <= LONGEST_FILE) else {
        return BoxAnswer::refused(16);
    };
    if row >= contents.len() / ROW {
        return BoxAnswer::refused(6);
    }
    let Some(outline) = found.outline else {
        return BoxAnswer::refused(7);
    };
    match around(bodies, &outline) {
        Fold { nan: true, .. } => BoxAnswer::refused(20),
        Fold { left, bottom, right, top, .. } => BoxAnswer { number: 0, left, bottom, right, top },
    }
}
