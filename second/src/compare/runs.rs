//! The runs lent to the library, each inside a longer run whose ends have to stay as they were.

use crate::library;
use second::random::Random;

/// The fewest elements on each side of a lent run.
const GUARD: usize = 16;

/// A run inside guard zones; the length of the first one varies, and so the alignment.
#[derive(Clone)]
pub struct Run<T> {
    whole: Vec<T>,
    start: usize,
    length: usize,
    /// For an empty run any pointer will do, NULL too.
    null: bool,
}

impl<T: Copy + PartialEq> Run<T> {
    /// A run of so many elements, all of them `fill`, as are the guard zones.
    pub fn filled(random: &mut Random, length: usize, fill: T) -> Run<T> {
        let start = GUARD + random.below(8);
        Run { whole: vec![fill; start + length + GUARD], start, length, null: random.flag() }
    }

    /// A run that holds these elements.
    pub fn holding(random: &mut Random, elements: &[T], fill: T) -> Run<T> {
        let mut run = Run::filled(random, elements.len(), fill);
        run.inner_mut().copy_from_slice(elements);
        run
    }

    pub fn inner(&self) -> &[T] {
        &self.whole[self.start..self.start + self.length]
    }

    pub fn inner_mut(&mut self) -> &mut [T] {
        &mut self.whole[self.start..self.start + self.length]
    }

    pub fn given(&self) -> library::Given<T> {
        if self.length == 0 && self.null {
            return (std::ptr::null(), 0);
        }
        (self.inner().as_ptr(), self.length)
    }

    pub fn lent(&mut self) -> library::Lent<T> {
        if self.length == 0 && self.null {
            return (std::ptr::null_mut(), 0);
        }
        (self.inner_mut().as_mut_ptr(), self.length)
    }

    /// Where the run or its guard zones differ from another: the index, before the run below 0.
    pub fn first_difference(&self, other: &Run<T>) -> Option<isize> {
        if self.whole == other.whole {
            return None;
        }
        let place = self.whole.iter().zip(&other.whole).position(|(one, two)| one != two)?;
        Some(place as isize - self.start as isize)
    }
}
