//! Where a file is cut into pieces: places in it, in order, some of them perhaps the same.

use crate::random::Random;

/// The pieces between the cuts, one more than there are; two cuts at one place give an empty piece.
pub fn pieces<'a>(file: &'a [u8], cuts: &[usize]) -> Vec<&'a [u8]> {
    let ends = cuts.iter().copied().chain([file.len()]);
    let mut start = 0;
    ends.map(|end| &file[std::mem::replace(&mut start, end)..end]).collect()
}

/// Cuts at so many bytes each.
pub fn every(length: usize, size: usize) -> Vec<usize> {
    (1..).map(|place| place * size).take_while(|place| *place < length).collect()
}

/// A few cuts or many, at random places, near the beginning, or at equal distances; some twice.
pub fn any(random: &mut Random, length: usize) -> Vec<usize> {
    let most = *random.pick(&[1, 2, 3, 6, 20, 60]);
    let mut cuts = match random.below(4) {
        0 => every(length, random.within(1 + length / 500, 600)),
        1 => (0..random.within(0, most)).map(|_| random.within(0, length.min(60))).collect(),
        _ => (0..random.within(0, most)).map(|_| random.within(0, length)).collect(),
    };
    if !cuts.is_empty() && random.flag() {
        let twice = *random.pick(&cuts);
        cuts.push(twice);
    }
    cuts.sort_unstable();
    cuts
}
