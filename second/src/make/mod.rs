//! The cases of the calls, and the lines that a program under test has to print for them.

pub mod boxes;
mod broken;
pub mod descriptions;
pub mod lists;
pub mod reads;
pub mod sessions;
pub mod sheets;
pub mod tables;

use crate::table::Table;
use std::collections::BTreeMap;
use std::fs;
use std::io;
use std::path::Path;

/// What makes the cases of a call, from a seed.
type Make = fn(u64) -> Vec<Case>;

/// Each call by the name that its cases have, in the order in which they are run.
pub const CALLS: [(&str, Make); 8] = [
    ("read", reads::cases),
    ("table", tables::cases),
    ("list", lists::cases),
    ("box", boxes::cases),
    ("description", descriptions::cases),
    ("sheet_write", sheets::write_cases),
    ("sheet_read", sheets::read_cases),
    ("session", sessions::cases),
];

/// What lent memory holds before a call.
pub const FILL: u32 = 0xA5A5_A5A5;
pub const FILL_BYTE: u8 = 0xA5;

/// A case: what it is, its data file, and the groups of its line.
pub struct Case {
    pub name: String,
    pub data: Vec<u8>,
    pub groups: Vec<String>,
}

/// h = 2166136261; for each word w: h = (h * 16777619 + w) mod 2^32.
pub fn hash(words: impl IntoIterator<Item = u32>) -> u32 {
    let step = |hash: u32, word: u32| hash.wrapping_mul(16_777_619).wrapping_add(word);
    words.into_iter().fold(2_166_136_261, step)
}

/// The data file of a call that takes a table: the numbers of contents words and bodies words, both runs, and what else the call takes.
pub fn table_data(table: &Table, rest: impl IntoIterator<Item = u32>) -> Vec<u8> {
    let lengths = [&table.contents, &table.bodies].map(|run| run.len() as u32);
    let runs = table.contents.iter().chain(&table.bodies).copied();
    lengths.into_iter().chain(runs).chain(rest).flat_map(u32::to_be_bytes).collect()
}

/// Writes for each call its data files, DIR/data/CALL/0000 and so on; then DIR/data/cases.txt, which names all cases, and DIR/stdout.
pub fn write(folder: &Path, all: &[(&str, Vec<Case>)]) -> io::Result<()> {
    let data = folder.join("data");
    let mut lines = String::new();
    let mut names = String::new();
    for (call, cases) in all {
        fs::create_dir_all(data.join(call))?;
        for (place, case) in cases.iter().enumerate() {
            let name = name_of(call, place);
            fs::write(data.join(&name), &case.data)?;
            names += &format!("{name} {}\n", case.name);
            lines += &format!("{name} ; {}\n", case.groups.join(" ; "));
        }
        remove_later(&data, call, cases.len())?;
    }
    fs::write(data.join("cases.txt"), names)?;
    fs::write(folder.join("stdout"), lines)
}

/// A case's name, which is that of its data file: the call, and the place among the call's cases.
fn name_of(call: &str, place: usize) -> String {
    format!("{call}/{place:04}")
}

/// Removes what an earlier run with more cases has left behind.
fn remove_later(data: &Path, call: &str, count: usize) -> io::Result<()> {
    for place in count..10_000 {
        let old = data.join(name_of(call, place));
        if !old.exists() {
            break;
        }
        fs::remove_file(old)?;
    }
    Ok(())
}

/// How often each number stands first in a case's line, behind the row of a question, for the totals that are printed.
pub fn first_numbers(cases: &[Case]) -> BTreeMap<u32, usize> {
    let mut numbers = BTreeMap::new();
    for case in cases {
        let mut words = case.groups[0].split(' ').filter(|word| !word.ends_with(':'));
        if let Some(number) = words.next().and_then(|word| word.parse().ok()) {
            *numbers.entry(number).or_default() += 1;
        }
    }
    numbers
}
