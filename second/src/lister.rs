//! The lister's lines (01, 'Plans that settle an argument'; 02, R-1).

use crate::table::{Table, ROW};

/// Version, rows, words; then for each row: row, kind, parent, start, length.
pub fn lines(table: &Table) -> String {
    let mut lines = format!("1.{} {} {}\n", table.bodies[0], table.rows(), table.words());
    for (row, words) in table.contents.chunks_exact(ROW).enumerate() {
        let [parent, start, length] = [words[1], words[2], words[3]];
        lines += &format!("{row} {} {parent} {start} {length}\n", kind_letter(words[0]));
    }
    lines
}

fn kind_letter(kind: u32) -> char {
    match kind {
        1 => 'G',
        2 => 'P',
        3 => 'T',
        4 => 'I',
        _ => 'X',
    }
}
