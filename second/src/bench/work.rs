//! The calls that are measured: each over all plans of a sort, in rooms that are exact.

use super::plans::OUTLINE;
use crate::library;
use second::answer::Answer;
use second::generate::chars;
use second::generate::sheets::sheet as sheet_of;
use second::model::{Chars, Drawing};
use second::session::{LentSession, Session};
use second::table::{self, Table};
use second::{ask, check, direct, extent, list, sheet, write};
use std::hint::black_box;

#[derive(Clone, Copy)]
pub enum Call {
    Read,
    Check,
    /// Of the path that a plan of `plans::OUTLINE` has.
    Box,
    /// Of the last row.
    Description,
    Write,
    /// With a label that some rows have.
    List,
    /// With the empty label, which all rows have below 1.2.
    ListEmpty,
    SheetRead,
    SheetWrite,
    /// With no room: the file is judged and nothing is stored.
    ReadNoRoom,
    /// A session from opening to the verdict, given pieces of so many bytes.
    Session(usize),
}

impl Call {
    const ALL: [Call; 14] = [
        Call::Read,
        Call::ReadNoRoom,
        Call::Session(1),
        Call::Session(64),
        Call::Session(512),
        Call::Session(65_535),
        Call::SheetRead,
        Call::Check,
        Call::Box,
        Call::Description,
        Call::Write,
        Call::SheetWrite,
        Call::List,
        Call::ListEmpty,
    ];

    /// Those that the linked library has; a sheet's call stands beside that of the file.
    pub fn linked() -> impl Iterator<Item = Call> {
        Call::ALL.into_iter().filter(|call| match call {
            Call::Box => cfg!(feature = "box"),
            Call::Description => cfg!(feature = "description"),
            Call::Read | Call::Check | Call::Write => true,
            Call::List | Call::ListEmpty => cfg!(feature = "list"),
            Call::SheetRead => cfg!(feature = "sheet_read"),
            Call::SheetWrite => cfg!(feature = "sheet_write"),
            Call::ReadNoRoom | Call::Session(_) => cfg!(feature = "session"),
        })
    }

    pub fn name(self) -> &'static str {
        match self {
            Call::Read => "read",
            Call::Check => "check",
            Call::Box => "box",
            Call::Description => "description",
            Call::Write => "write",
            Call::List => "list",
            Call::ListEmpty => "list-empty",
            Call::SheetRead => "sheet-read",
            Call::SheetWrite => "sheet-write",
            Call::ReadNoRoom => "read-no-room",
            Call::Session(1) => "session-1",
            Call::Session(64) => "session-64",
            Call::Session(512) => "session-512",
            Call::Session(_) => "session-65535",
        }
    }

    /// Whether it is measured on these plans: those for the box have little else to show than what it costs beside a check.
    pub fn is_measured(self, plans: &str) -> bool {
        match self {
            Call::Check | Call::Description => true,
            Call::Box => plans == OUTLINE,
            _ => plans != OUTLINE,
        }
    }
}

/// Whose call it is: the library's, this program's tuned one, or its plain one.
#[derive(Clone, Copy)]
pub enum Who {
    Library,
    Direct,
    Plain,
}

impl Who {
    pub const ALL: [Who; 3] = [Who::Library, Who::Direct, Who::Plain];

    pub fn name(self) -> &'static str {
        match self {
            Who::Library => "library",
            Who::Direct => "direct",
            Who::Plain => "plain",
        }
    }
}

/// A plan with its table, and memory to be lent.
pub struct Plan {
    pub file: Vec<u8>,
    table: Table,
    contents: Vec<u32>,
    bodies: Vec<u32>,
    pub output: Vec<u8>,
    label: Chars,
    entries: Vec<u32>,
    sheet: Vec<u8>,
    sheet_output: Vec<u8>,
    session: LentSession,
    direct_session: direct::Session,
}

pub struct Work {
    pub each: Vec<Plan>,
}

pub fn given<T>(run: &[T]) -> library::Given<T> {
    (run.as_ptr(), run.len())
}

pub fn lent<T>(run: &mut [T]) -> library::Lent<T> {
    (run.as_mut_ptr(), run.len())
}

impl Plan {
    fn new(drawing: &Drawing) -> Plan {
        let (file, table) = (write::file(drawing), table::of(drawing));
        let (contents, bodies) = (vec![0; table.contents.len()], vec![0; table.bodies.len()]);
        let output = vec![0; file.len()];
        let (label, entries) = (frequent_label(drawing), vec![0; table.rows() as usize]);
        let sheet = sheet_of(drawing);
        let sheet_output = vec![0; sheet.len()];
        let session = LentSession { words: [0; LentSession::WORDS] };
        let direct_session = direct::Session::default();
        Plan {
            file,
            table,
            contents,
            bodies,
            output,
            label,
            entries,
            sheet,
            sheet_output,
            session,
            direct_session,
        }
    }

    fn read(&mut self, who: Who) -> Answer {
        let (file, contents, bodies) = (&self.file, &mut self.contents, &mut self.bodies);
        match who {
            Who::Library => library::read(given(file), lent(contents), lent(bodies)),
            Who::Direct => direct::read(file, contents, bodies),
            Who::Plain => table::read_call(file, contents, bodies),
        }
    }

    fn check(&mut self, who: Who) -> Answer {
        let (contents, bodies) = (&self.table.contents, &self.table.bodies);
        match who {
            Who::Library => library::check(given(contents), given(bodies)),
            Who::Direct => direct::check(contents, bodies),
            Who::Plain => check::call(check::good(contents, bodies).as_ref()),
        }
    }

    /// The number alone is handed on, but the whole box is made.
    fn extent(&mut self, who: Who) -> Answer {
        let (contents, bodies) = (&self.table.contents, &self.table.bodies);
        let answer = match who {
            Who::Library => {
                library::extent(given(contents), given(bodies), 1).expect("only measured where it is linked")
            }
            Who::Direct => direct::extent(contents, bodies, 1),
            Who::Plain => extent::call(check::good(contents, bodies).as_ref(), 1),
        };
        Answer::refused(black_box(answer).number, 0)
    }

    fn description(&mut self, who: Who) -> Answer {
        let (contents, bodies) = (&self.table.contents, &self.table.bodies);
        let row = self.table.rows() - 1;
        let answer = match who {
            Who::Library => library::description(given(contents), given(bodies), row)
                .expect("only measured where it is linked"),
            Who::Direct => direct::description(contents, bodies, row),
            Who::Plain => ask::description(check::good(contents, bodies).as_ref(), row),
        };
        Answer::refused(black_box(answer).number, 0)
    }

    fn write(&mut self, who: Who) -> Answer {
        let (contents, bodies, file) = (&self.table.contents, &self.table.bodies, &mut self.output);
        match who {
            Who::Library => library::write(given(contents), given(bodies), lent(file)),
            Who::Direct => direct::write(contents, bodies, file),
            Who::Plain => write::call(check::good(contents, bodies).as_ref(), file),
        }
    }

    fn list(&mut self, who: Who, empty: bool) -> Answer {
        let (contents, bodies, entries) = (&self.table.contents, &self.table.bodies, &mut self.entries);
        let label = if empty { &[] } else { &self.label[..] };
        match who {
            Who::Library => {
                linked(library::list(given(contents), given(bodies), given(label), lent(entries)))
            }
            Who::Direct => direct::list(contents, bodies, label, entries),
            Who::Plain => list::call(check::good(contents, bodies).as_ref(), label, entries),
        }
    }

    fn sheet_read(&mut self, who: Who) -> Answer {
        let (sheet, contents, bodies) = (&self.sheet, &mut self.contents, &mut self.bodies);
        match who {
            Who::Library => linked(library::sheet_read(given(sheet), lent(contents), lent(bodies))),
            Who::Direct => direct::sheet_read(sheet, contents, bodies),
            Who::Plain => sheet::read_call(sheet, contents, bodies),
        }
    }

    fn sheet_write(&mut self, who: Who) -> Answer {
        let (contents, bodies, sheet) = (&self.table.contents, &self.table.bodies, &mut self.sheet_output);
        match who {
            Who::Library => linked(library::sheet_write(given(contents), given(bodies), lent(sheet))),
            Who::Direct => direct::sheet_write(contents, bodies, sheet),
            Who::Plain => sheet::write_call(check::good(contents, bodies).as_ref(), sheet),
        }
    }

    fn read_no_room(&mut self, who: Who) -> Answer {
        let file = &self.file;
        let answer = match who {
            Who::Library => library::read(given(file), lent(&mut []), lent(&mut [])),
            Who::Direct => direct::read(file, &mut [], &mut []),
            Who::Plain => table::read_call(file, &mut [], &mut []),
        };
        // 14 says that the file is good.
        Answer { number: answer.number ^ 14, ..answer }
    }

    fn session(&mut self, who: Who, size: usize) -> Answer {
        let pieces = self.file.chunks(size);
        match who {
            Who::Library => {
                linked(library::session_open(&mut self.session));
                for piece in pieces {
                    linked(library::session_piece(&mut self.session, given(piece)));
                }
                linked(library::session_verdict(&mut self.session))
            }
            Who::Direct => {
                self.direct_session.open();
                pieces.for_each(|piece| self.direct_session.piece(piece));
                self.direct_session.verdict()
            }
            Who::Plain => {
                let mut session = Session::default();
                for piece in pieces {
                    session.piece(piece);
                }
                session.verdict()
            }
        }
    }
}

/// A call of the library that is measured only where it is linked.
fn linked(answer: Option<Answer>) -> Answer {
    answer.expect("a call that is linked")
}

/// The label that most rows have, the empty one left out; below 1.2, where none is there, one that is never found.
fn frequent_label(drawing: &Drawing) -> Chars {
    let labels = list::opened(drawing).into_iter().map(|object| object.description);
    let labels: Vec<&[u16]> = labels.filter(|label| !label.is_empty()).collect();
    let count = |wanted: &[u16]| labels.iter().filter(|label| **label == wanted).count();
    labels.iter().max_by_key(|label| count(label)).map_or(chars("machine"), |label| label.to_vec())
}

impl Work {
    pub fn new(drawings: &[Drawing]) -> Work {
        Work { each: drawings.iter().map(Plan::new).collect() }
    }

    /// The bytes of all files.
    pub fn bytes(&self) -> usize {
        self.each.iter().map(|plan| plan.file.len()).sum()
    }

    /// The call on every plan, once. Each has to be accepted, or the figure would be of something else.
    pub fn repeat(&mut self, call: Call, who: Who) {
        for plan in &mut self.each {
            let answer = match call {
                Call::Read => plan.read(who),
                Call::Check => plan.check(who),
                Call::Box => plan.extent(who),
                Call::Description => plan.description(who),
                Call::Write => plan.write(who),
                Call::List => plan.list(who, false),
                Call::ListEmpty => plan.list(who, true),
                Call::SheetRead => plan.sheet_read(who),
                Call::SheetWrite => plan.sheet_write(who),
                Call::ReadNoRoom => plan.read_no_room(who),
                Call::Session(size) => plan.session(who, size),
            };
            assert_eq!(black_box(answer).number, 0, "{} of {}", call.name(), who.name());
        }
    }
}
