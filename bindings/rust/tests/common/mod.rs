//! The committed cases of the library (second/README.md says what their lines mean) and the example plans, for the tests.
#![allow(dead_code)] // each test uses its part

use std::fs;
use std::path::PathBuf;

pub const FILL: u32 = 0xA5A5_A5A5;
pub const FILL_BYTE: u8 = 0xA5;

/// A file of the repository.
pub fn path(name: &str) -> PathBuf {
    PathBuf::from(concat!(env!("CARGO_MANIFEST_DIR"), "/../..")).join(name)
}

/// A case: its name, its data, and the groups of its line.
pub struct Case {
    pub name: String,
    pub data: Vec<u8>,
    pub groups: Vec<String>,
}

/// The cases of a call.
pub fn cases(call: &str) -> Vec<Case> {
    let lines = fs::read_to_string(path("crates/run_cases/stdout")).expect("the expected lines");
    let cases: Vec<Case> = lines
        .lines()
        .filter(|line| line.starts_with(&format!("{call}/")))
        .map(|line| {
            let mut groups = line.split(" ; ").map(String::from);
            let name = groups.next().expect("a name");
            let data = fs::read(path("crates/run_cases/data").join(&name)).expect("a data file");
            Case { name, data, groups: groups.collect() }
        })
        .collect();
    assert!(cases.len() > 80, "there are fewer cases of {call} than there were");
    cases
}

/// The table in the data of a call that takes one, and what else there is.
pub fn table(data: &[u8]) -> (Vec<u32>, Vec<u32>, Vec<u32>) {
    let words: Vec<u32> =
        data.chunks(4).map(|bytes| u32::from_be_bytes(bytes.try_into().expect("words"))).collect();
    let (contents, rest) = words[2..].split_at(words[0] as usize);
    let (bodies, rest) = rest.split_at(words[1] as usize);
    (contents.to_vec(), bodies.to_vec(), rest.to_vec())
}

/// The hash of all words.
pub fn hash(words: impl IntoIterator<Item = u32>) -> String {
    let step = |hash: u32, word: u32| hash.wrapping_mul(16_777_619).wrapping_add(word);
    format!("{:08x}", words.into_iter().fold(2_166_136_261, step))
}

/// The example plans, with their names; their sheets are left out.
pub fn plans() -> Vec<(String, Vec<u8>)> {
    let folder = fs::read_dir(path("examples/plans")).expect("the plans");
    folder
        .map(|entry| {
            let entry = entry.expect("a plan");
            let file = fs::read(entry.path()).expect("its bytes");
            (entry.file_name().to_string_lossy().into_owned(), file)
        })
        .filter(|(name, _)| name.ends_with(".jdr"))
        .collect()
}

/// One of the example plans.
pub fn plan(name: &str) -> Vec<u8> {
    fs::read(path("examples/plans").join(name)).expect("the plan")
}
