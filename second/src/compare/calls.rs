//! One comparison for each call: both answers, all that is handed back, and every lent element.

use super::report::{Call, Report};
use super::runs::Run;
use crate::library::{self, Given, Lent};
use second::answer::Answer;
use second::check::{self, Good};
use second::make::table_data;
use second::random::Random;
use second::table::{self, Table};
use second::{ask, extent, list, sheet, write};

/// Compares calls and keeps count.
pub struct Comparer {
    pub random: Random,
    pub report: Report,
}

/// A table that is asked about: its runs as lent, their copies, and what this program makes of it.
pub struct Asked {
    pub table: Table,
    pub good: Option<Good>,
    contents: Run<u32>,
    bodies: Run<u32>,
    contents_before: Run<u32>,
    bodies_before: Run<u32>,
}

impl Asked {
    pub fn new(random: &mut Random, table: Table) -> Asked {
        let good = check::good(&table.contents, &table.bodies);
        let contents = Run::holding(random, &table.contents, 0xC0C0_C0C0);
        let bodies = Run::holding(random, &table.bodies, 0xB0B0_B0B0);
        let (contents_before, bodies_before) = (contents.clone(), bodies.clone());
        Asked { table, good, contents, bodies, contents_before, bodies_before }
    }

    /// Where a call has changed what was lent for reading only; put right for the next call.
    fn changed(&mut self) -> Vec<(&'static str, Option<isize>)> {
        let contents = self.contents.first_difference(&self.contents_before);
        let bodies = self.bodies.first_difference(&self.bodies_before);
        if contents.is_some() || bodies.is_some() {
            self.contents = self.contents_before.clone();
            self.bodies = self.bodies_before.clone();
        }
        vec![("contents", contents), ("bodies", bodies)]
    }
}

/// A call of either side that takes bytes and fills a table; None where the library has it not.
type OurReader = fn(&[u8], &mut [u32], &mut [u32]) -> Answer;
type TheirReader = fn(Given<u8>, Lent<u32>, Lent<u32>) -> Option<Answer>;

/// A call of either side that takes a table and writes bytes.
type OurWriter = fn(Option<&Good>, &mut [u8]) -> Answer;
type TheirWriter = fn(Given<u32>, Given<u32>, Lent<u8>) -> Option<Answer>;

/// The four numbers of an answer.
pub fn words(answer: Answer) -> Vec<u32> {
    vec![answer.number, answer.offset, answer.rows, answer.words]
}

impl Comparer {
    /// What lent memory holds before a call.
    fn fill(&mut self) -> u32 {
        self.random.word()
    }

    /// Rooms in words. Gives this program's answer.
    pub fn read(&mut self, file: &[u8], contents_room: usize, bodies_room: usize) -> Answer {
        let theirs = |file, contents, bodies| Some(library::read(file, contents, bodies));
        self.read_by(Call::Read, table::read_call, theirs, file, [contents_room, bodies_room])
    }

    /// Rooms in words. Gives this program's answer.
    pub fn sheet_read(&mut self, bytes: &[u8], contents_room: usize, bodies_room: usize) -> Answer {
        let rooms = [contents_room, bodies_room];
        self.read_by(Call::SheetRead, sheet::read_call, library::sheet_read, bytes, rooms)
    }

    /// A call that takes bytes and fills a table.
    fn read_by(
        &mut self,
        call: Call,
        ours: OurReader,
        theirs: TheirReader,
        bytes: &[u8],
        rooms: [usize; 2],
    ) -> Answer {
        let fill = self.fill();
        let random = &mut self.random;
        let given = Run::holding(random, bytes, fill as u8);
        let given_before = given.clone();
        let mut contents = Run::filled(random, rooms[0], fill);
        let mut bodies = Run::filled(random, rooms[1], !fill);
        let (mut our_contents, mut our_bodies) = (contents.clone(), bodies.clone());
        let ours = ours(bytes, our_contents.inner_mut(), our_bodies.inner_mut());
        let Some(theirs) = theirs(given.given(), contents.lent(), bodies.lent()) else {
            return ours;
        };
        let memory = vec![
            ("bytes", given.first_difference(&given_before)),
            ("contents", contents.first_difference(&our_contents)),
            ("bodies", bodies.first_difference(&our_bodies)),
        ];
        let detail = || format!("rooms of {} and {} words", rooms[0], rooms[1]);
        self.report.compared(call, &words(ours), &words(theirs), memory, detail, || bytes.to_vec());
        ours
    }

    pub fn check(&mut self, asked: &mut Asked) {
        let ours = check::call(asked.good.as_ref());
        let theirs = library::check(asked.contents.given(), asked.bodies.given());
        let memory = asked.changed();
        let data = || table_data(&asked.table, []);
        self.report.compared(Call::Check, &words(ours), &words(theirs), memory, String::new, data);
    }

    /// Room in bytes. Gives this program's answer.
    pub fn write(&mut self, asked: &mut Asked, room: usize) -> Answer {
        let theirs = |contents, bodies, output| Some(library::write(contents, bodies, output));
        self.write_by(Call::Write, write::call, theirs, asked, room)
    }

    /// Room in bytes. Gives this program's answer.
    pub fn sheet_write(&mut self, asked: &mut Asked, room: usize) -> Answer {
        self.write_by(Call::SheetWrite, sheet::write_call, library::sheet_write, asked, room)
    }

    /// A call that takes a table and writes bytes.
    fn write_by(
        &mut self,
        call: Call,
        ours: OurWriter,
        theirs: TheirWriter,
        asked: &mut Asked,
        room: usize,
    ) -> Answer {
        let fill = self.fill() as u8;
        let mut output = Run::filled(&mut self.random, room, fill);
        let mut our_output = output.clone();
        let ours = ours(asked.good.as_ref(), our_output.inner_mut());
        let Some(theirs) = theirs(asked.contents.given(), asked.bodies.given(), output.lent()) else {
            return ours;
        };
        let mut memory = asked.changed();
        memory.push(("output", output.first_difference(&our_output)));
        let detail = || format!("room of {room} bytes");
        let data = || table_data(&asked.table, []);
        self.report.compared(call, &words(ours), &words(theirs), memory, detail, data);
        ours
    }

    /// Room in entries. Gives this program's answer.
    pub fn list(&mut self, asked: &mut Asked, label: &[u16], room: usize) -> Answer {
        let fill = self.fill();
        let given = Run::holding(&mut self.random, label, fill as u16);
        let given_before = given.clone();
        let mut entries = Run::filled(&mut self.random, room, fill);
        let mut our_entries = entries.clone();
        let ours = list::call(asked.good.as_ref(), label, our_entries.inner_mut());
        let runs = (asked.contents.given(), asked.bodies.given());
        let Some(theirs) = library::list(runs.0, runs.1, given.given(), entries.lent()) else {
            return ours;
        };
        let mut memory = asked.changed();
        memory.push(("label", given.first_difference(&given_before)));
        memory.push(("entries", entries.first_difference(&our_entries)));
        let detail = || format!("room of {room} entries, label {label:04x?}");
        let data = || table_data(&asked.table, label.iter().copied().map(u32::from));
        self.report.compared(Call::List, &words(ours), &words(theirs), memory, detail, data);
        ours
    }

    /// By the bits of its sides: -0 and 0 differ.
    pub fn extent(&mut self, asked: &mut Asked, row: u32) {
        let Some(theirs) = library::extent(asked.contents.given(), asked.bodies.given(), row) else {
            return;
        };
        let ours = extent::call(asked.good.as_ref(), row);
        let memory = asked.changed();
        let detail = || format!("row {row}");
        let data = || table_data(&asked.table, [row]);
        self.report.compared(Call::Box, &ours.words(), &theirs.words(), memory, detail, data);
    }

    pub fn paint(&mut self, asked: &mut Asked, row: u32, which: u32) {
        let ours = ask::paint(asked.good.as_ref(), row, which);
        let Some(theirs) = library::paint(asked.contents.given(), asked.bodies.given(), row, which) else {
            return;
        };
        let memory = asked.changed();
        let detail = || format!("row {row}, which {which}");
        let data = || table_data(&asked.table, []);
        self.report.compared(Call::Paint, &ours.words(), &theirs.words(), memory, detail, data);
    }

    pub fn text(&mut self, asked: &mut Asked, row: u32) {
        let ours = ask::text(asked.good.as_ref(), row);
        let Some(theirs) = library::text(asked.contents.given(), asked.bodies.given(), row) else {
            return;
        };
        let memory = asked.changed();
        let detail = || format!("row {row}");
        let data = || table_data(&asked.table, []);
        self.report.compared(Call::Text, &ours.words(), &theirs.words(), memory, detail, data);
    }

    pub fn description(&mut self, asked: &mut Asked, row: u32) {
        let ours = ask::description(asked.good.as_ref(), row);
        let Some(theirs) = library::description(asked.contents.given(), asked.bodies.given(), row) else {
            return;
        };
        let memory = asked.changed();
        let detail = || format!("row {row}");
        let data = || table_data(&asked.table, [row]);
        self.report.compared(Call::Description, &ours.words(), &theirs.words(), memory, detail, data);
    }
}
