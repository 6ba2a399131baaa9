//! Counts of what was compared, and what is written down about a disagreement.

use std::collections::BTreeMap;
use std::path::PathBuf;
use std::time::Duration;

#[derive(Clone, Copy, PartialEq, Eq, PartialOrd, Ord)]
pub enum Call {
    Read,
    Check,
    Write,
    List,
    Box,
    Paint,
    Text,
    Description,
    SheetWrite,
    SheetRead,
    SessionOpen,
    SessionPiece,
    SessionVerdict,
}

impl Call {
    const ALL: [Call; 13] = [
        Call::Read,
        Call::Check,
        Call::Write,
        Call::List,
        Call::Box,
        Call::Paint,
        Call::Text,
        Call::Description,
        Call::SheetWrite,
        Call::SheetRead,
        Call::SessionOpen,
        Call::SessionPiece,
        Call::SessionVerdict,
    ];

    fn name(self) -> &'static str {
        match self {
            Call::Read => "read",
            Call::Check => "check",
            Call::Write => "write",
            Call::List => "list",
            Call::Box => "box",
            Call::Paint => "paint",
            Call::Text => "text",
            Call::Description => "description",
            Call::SheetWrite => "sheet_write",
            Call::SheetRead => "sheet_read",
            Call::SessionOpen => "session_open",
            Call::SessionPiece => "session_piece",
            Call::SessionVerdict => "session_verdict",
        }
    }
}

/// Inputs are written down only so often; after that disagreements are counted.
const WRITTEN_AT_MOST: u64 = 50;

pub struct Report {
    folder: PathBuf,
    /// The seed of the round under way.
    pub seed: u64,
    counts: BTreeMap<(Call, u32), u64>,
    /// In how many rounds the drawing was of a version, or had something worth counting.
    drawings: BTreeMap<String, u64>,
    /// How many sessions there were of each sort, and how many cuts their files had.
    sessions: BTreeMap<&'static str, u64>,
    pub disagreements: u64,
}

impl Report {
    pub fn new(folder: PathBuf) -> Report {
        Report {
            folder,
            seed: 0,
            counts: BTreeMap::new(),
            drawings: BTreeMap::new(),
            sessions: BTreeMap::new(),
            disagreements: 0,
        }
    }

    pub fn met(&mut self, what: String) {
        *self.drawings.entry(what).or_insert(0) += 1;
    }

    pub fn in_sessions(&mut self, what: &'static str, count: usize) {
        *self.sessions.entry(what).or_insert(0) += count as u64;
    }

    /// One call: the words of both answers, and where lent memory differs from what it has to be.
    pub fn compared(
        &mut self,
        call: Call,
        ours: &[u32],
        theirs: &[u32],
        memory: Vec<(&'static str, Option<isize>)>,
        detail: impl Fn() -> String,
        data: impl Fn() -> Vec<u8>,
    ) {
        *self.counts.entry((call, ours[0])).or_insert(0) += 1;
        let places: Vec<String> = memory.into_iter().filter_map(difference).collect();
        if ours == theirs && places.is_empty() {
            return;
        }
        self.disagreements += 1;
        if self.disagreements <= WRITTEN_AT_MOST {
            self.write_down(call, &data());
            println!("  {}", detail());
            println!("  second:  {}", joined(ours));
            println!("  library: {}", joined(theirs));
            places.iter().for_each(|place| println!("  {place}"));
        }
    }

    fn write_down(&self, call: Call, data: &[u8]) {
        let name = format!("disagreement-{:04}-{}", self.disagreements, call.name());
        let path = self.folder.join(name);
        println!("{} (round of seed {}): {}", call.name(), self.seed, path.display());
        if let Err(error) = std::fs::write(&path, data) {
            println!("  not written: {error}");
        }
    }

    fn count(&self, call: Call) -> u64 {
        self.counts.iter().filter(|((of, _), _)| *of == call).map(|(_, count)| count).sum()
    }

    pub fn print_totals(&self, rounds: u64, taken: Duration) {
        for call in Call::ALL {
            let numbers = self.counts.iter().filter(|((of, _), _)| *of == call);
            let each: Vec<String> =
                numbers.map(|((_, number), count)| format!("{number}: {count}")).collect();
            println!("{:15} {:10}   {}", call.name(), self.count(call), each.join(", "));
        }
        let drawings: Vec<String> =
            self.drawings.iter().map(|(what, count)| format!("{what}: {count}")).collect();
        println!("drawings                     {}", drawings.join(", "));
        let sessions: Vec<String> =
            self.sessions.iter().map(|(what, count)| format!("{what}: {count}")).collect();
        println!("sessions                     {}", sessions.join(", "));
        let total: u64 = self.counts.values().sum();
        let seconds = taken.as_secs_f64();
        println!(
            "{total} calls in {rounds} rounds and {seconds:.1} s: {:.0} a second",
            total as f64 / seconds
        );
        println!("{} disagreements", self.disagreements);
    }
}

fn difference((name, place): (&'static str, Option<isize>)) -> Option<String> {
    place.map(|place| format!("lent memory differs: {name}[{place}]"))
}

fn joined(words: &[u32]) -> String {
    let words: Vec<String> = words.iter().map(u32::to_string).collect();
    words.join(" ")
}
