//! The boxes that a round asks for.

use super::calls::{Asked, Comparer};
use second::random::Random;

/// A table of more rows has hardly a path, and each box costs a check of the whole table: some of its rows are enough.
const ALL_OF: u32 = 1_000;
const SOME: usize = 30;

/// The box of every row, and of one past the end.
pub fn ask(comparer: &mut Comparer, asked: &mut Asked) {
    let rows = asked.table.rows();
    if rows <= ALL_OF {
        (0..rows).for_each(|row| comparer.extent(asked, row));
    } else {
        for _ in 0..SOME {
            let row = some_row(&mut comparer.random, rows);
            comparer.extent(asked, row);
        }
    }
    let row = past_the_end(&mut comparer.random, rows);
    comparer.extent(asked, row);
}

/// A damaged table is refused for any row, one past the end too; but it may be good all the same, and then has other boxes.
pub fn ask_damaged(comparer: &mut Comparer, asked: &mut Asked) {
    if asked.good.is_some() {
        return ask(comparer, asked);
    }
    let rows = asked.table.rows();
    let row = match comparer.random.below(4) {
        0 => past_the_end(&mut comparer.random, rows),
        _ => some_row(&mut comparer.random, rows),
    };
    comparer.extent(asked, row);
}

fn some_row(random: &mut Random, rows: u32) -> u32 {
    random.below(rows.max(1) as usize) as u32
}

/// The first row past the end most often; or one whose place in the contents would wrap to that of a row, or the last number of all.
fn past_the_end(random: &mut Random, rows: u32) -> u32 {
    match random.below(4) {
        0 => some_row(random, rows) | *random.pick(&[0x4000_0000, 0x8000_0000, 0xC000_0000]),
        1 => *random.pick(&[rows + 1, u32::MAX]),
        _ => rows,
    }
}
