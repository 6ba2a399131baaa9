//! The library's calls as C has them, over slices: every call takes every input, and its answer has a number. [`crate::TableRef`] is easier.
//!
//! A number is 0 where the call is done; [`crate::Reason`] has the others. After any other number the memory lent is as it was, but for a
//! session, which is spent by its verdict.

/// What a call answers: a number, the offset, and the counts of rows and of words in the bodies.
#[repr(C)]
#[derive(Clone, Copy, Debug, Default, PartialEq, Eq)]
pub struct Answer {
    pub number: u32,
    pub offset: u32,
    pub rows: u32,
    pub words: u32,
}

/// A colour: its kind, and its components in file order, the unused ones 0.
#[repr(C)]
#[derive(Clone, Copy, Debug, Default, PartialEq)]
pub struct ColourAnswer {
    pub kind: u32,
    pub components: [f32; 5],
}

/// A number, and a paint: its form, the gradient's integer, and its colours.
#[repr(C)]
#[derive(Clone, Copy, Debug, Default, PartialEq)]
pub struct PaintAnswer {
    pub number: u32,
    pub form: u32,
    pub place: u32,
    pub first: ColourAnswer,
    pub second: ColourAnswer,
}

/// A number, and where in the bodies the chars of a text's LaTeX alternative and its own stand, one a word.
#[repr(C)]
#[derive(Clone, Copy, Debug, Default, PartialEq, Eq)]
pub struct TextAnswer {
    pub number: u32,
    pub alternative_start: u32,
    pub alternative_length: u32,
    pub text_start: u32,
    pub text_length: u32,
}

/// A number, and where in the bodies the chars of a description stand, one a word.
#[repr(C)]
#[derive(Clone, Copy, Debug, Default, PartialEq, Eq)]
pub struct DescriptionAnswer {
    pub number: u32,
    pub start: u32,
    pub length: u32,
}

/// A number, and the box around an outline: the least x and y, then the greatest x and y.
#[repr(C)]
#[derive(Clone, Copy, Debug, Default, PartialEq)]
pub struct BoxAnswer {
    pub number: u32,
    pub left: f64,
    pub bottom: f64,
    pub right: f64,
    pub top: f64,
}

/// What is known so far of a file that comes in pieces. Before [`session_open`] it may hold anything.
#[repr(C)]
#[derive(Clone, Copy, Debug, PartialEq, Eq)]
pub struct SessionStruct {
    pub spent: u32,
    /// How many groups are open.
    pub depth: u32,
    /// How many bytes were given, counted up to one more than a file may have.
    pub bytes: u32,
    pub number: u32,
    pub offset: u32,
    pub rows: u32,
    pub words: u32,
    pub version: u32,
    pub stage: u32,
    pub width: u32,
    pub segments: u32,
    pub held: u32,
    pub parts: u64,
    pub run: u64,
    pub x: u64,
    pub y: u64,
    pub members: [u32; 16],
    pub buffer: [u8; 184],
}

// C's struct has this size; the library would write behind a shorter one.
const _: () = assert!(core::mem::size_of::<SessionStruct>() == 328);

impl SessionStruct {
    /// All numbers are 0; it is not opened.
    pub const ZERO: SessionStruct = SessionStruct {
        spent: 0,
        depth: 0,
        bytes: 0,
        number: 0,
        offset: 0,
        rows: 0,
        words: 0,
        version: 0,
        stage: 0,
        width: 0,
        segments: 0,
        held: 0,
        parts: 0,
        run: 0,
        x: 0,
        y: 0,
        members: [0; 16],
        buffer: [0; 184],
    };
}

mod c {
    use super::{Answer, BoxAnswer, DescriptionAnswer, PaintAnswer, SessionStruct, TextAnswer};

    // A run is a pointer and a length.
    extern "C" {
        pub fn jdr_read(
            file: *const u8,
            file_len: usize,
            contents: *mut u32,
            contents_len: usize,
            bodies: *mut u32,
            bodies_len: usize,
        ) -> Answer;
        pub fn jdr_check(
            contents: *const u32,
            contents_len: usize,
            bodies: *const u32,
            bodies_len: usize,
        ) -> Answer;
        pub fn jdr_write(
            contents: *const u32,
            contents_len: usize,
            bodies: *const u32,
            bodies_len: usize,
            file: *mut u8,
            file_len: usize,
        ) -> Answer;
        pub fn jdr_sheet_write(
            contents: *const u32,
            contents_len: usize,
            bodies: *const u32,
            bodies_len: usize,
            sheet: *mut u8,
            sheet_len: usize,
        ) -> Answer;
        pub fn jdr_sheet_read(
            sheet: *const u8,
            sheet_len: usize,
            contents: *mut u32,
            contents_len: usize,
            bodies: *mut u32,
            bodies_len: usize,
        ) -> Answer;
        pub fn jdr_list(
            contents: *const u32,
            contents_len: usize,
            bodies: *const u32,
            bodies_len: usize,
            label: *const u16,
            label_len: usize,
            entries: *mut u32,
            entries_len: usize,
        ) -> Answer;
        pub fn jdr_paint(
            contents: *const u32,
            contents_len: usize,
            bodies: *const u32,
            bodies_len: usize,
            row: u32,
            which: u32,
        ) -> PaintAnswer;
        pub fn jdr_text(
            contents: *const u32,
            contents_len: usize,
            bodies: *const u32,
            bodies_len: usize,
            row: u32,
        ) -> TextAnswer;
        pub fn jdr_description(
            contents: *const u32,
            contents_len: usize,
            bodies: *const u32,
            bodies_len: usize,
            row: u32,
        ) -> DescriptionAnswer;
        pub fn jdr_box(
            contents: *const u32,
            contents_len: usize,
            bodies: *const u32,
            bodies_len: usize,
            row: u32,
        ) -> BoxAnswer;
        pub fn jdr_session_open(session: *mut SessionStruct) -> Answer;
        pub fn jdr_session_piece(session: *mut SessionStruct, bytes: *const u8, bytes_len: usize) -> Answer;
        pub fn jdr_session_verdict(session: *mut SessionStruct) -> Answer;
    }
}

/// Calls the C function of this name: each shared run is `&run`, each run lent for writing `&mut run`, and numbers and a session stand as
/// they are.
///
/// Safe in all calls: a slice is aligned and good for its length, a `&mut` one overlaps no other, and the calls take any content.
macro_rules! call {
    (@ $name:ident [$($made:tt)*] & mut $run:ident $(, $($rest:tt)*)?) => {
        call!(@ $name [$($made)* $run.as_mut_ptr(), $run.len(),] $($($rest)*)?)
    };
    (@ $name:ident [$($made:tt)*] & $run:ident $(, $($rest:tt)*)?) => {
        call!(@ $name [$($made)* $run.as_ptr(), $run.len(),] $($($rest)*)?)
    };
    (@ $name:ident [$($made:tt)*] $number:ident $(, $($rest:tt)*)?) => {
        call!(@ $name [$($made)* $number,] $($($rest)*)?)
    };
    (@ $name:ident [$($made:tt)*]) => { unsafe { c::$name($($made)*) } };
    ($name:ident, $($rest:tt)*) => { call!(@ $name [] $($rest)*) };
}

/// Reads a file into a table. With too little room the answer has the counts that are needed.
pub fn read(file: &[u8], contents: &mut [u32], bodies: &mut [u32]) -> Answer {
    call!(jdr_read, &file, &mut contents, &mut bodies)
}

/// Whether the two runs are a table that an acceptable file gives; the offset is then that file's length.
pub fn check(contents: &[u32], bodies: &[u32]) -> Answer {
    call!(jdr_check, &contents, &bodies)
}

/// Writes the file of a table.
pub fn write(contents: &[u32], bodies: &[u32], file: &mut [u8]) -> Answer {
    call!(jdr_write, &contents, &bodies, &mut file)
}

/// Writes the sheet of a table.
pub fn sheet_write(contents: &[u32], bodies: &[u32], sheet: &mut [u8]) -> Answer {
    call!(jdr_sheet_write, &contents, &bodies, &mut sheet)
}

/// Reads a sheet into a table. With too little room the answer has the counts that are needed.
pub fn sheet_read(sheet: &[u8], contents: &mut [u32], bodies: &mut [u32]) -> Answer {
    call!(jdr_sheet_read, &sheet, &mut contents, &mut bodies)
}

/// Stores the rows of the objects whose description is the label.
pub fn list(contents: &[u32], bodies: &[u32], label: &[u16], entries: &mut [u32]) -> Answer {
    call!(jdr_list, &contents, &bodies, &label, &mut entries)
}

/// The line (0), fill (1) or text (2) paint of a row.
pub fn paint(contents: &[u32], bodies: &[u32], row: u32, which: u32) -> PaintAnswer {
    call!(jdr_paint, &contents, &bodies, row, which)
}

/// Where the chars of a row's text stand.
pub fn text(contents: &[u32], bodies: &[u32], row: u32) -> TextAnswer {
    call!(jdr_text, &contents, &bodies, row)
}

/// Where the chars of a row's description stand.
pub fn description(contents: &[u32], bodies: &[u32], row: u32) -> DescriptionAnswer {
    call!(jdr_description, &contents, &bodies, row)
}

/// The box around a row's outline: `jdr_box`, whose name is a word of the language here.
pub fn extent(contents: &[u32], bodies: &[u32], row: u32) -> BoxAnswer {
    call!(jdr_box, &contents, &bodies, row)
}

/// Begins a session, whatever it holds.
pub fn session_open(session: &mut SessionStruct) -> Answer {
    call!(jdr_session_open, session)
}

/// Gives a session the next bytes of a file.
pub fn session_piece(session: &mut SessionStruct, bytes: &[u8]) -> Answer {
    call!(jdr_session_piece, session, &bytes)
}

/// What [`read`] answers for the bytes so far, with room enough. It spends the session.
pub fn session_verdict(session: &mut SessionStruct) -> Answer {
    call!(jdr_session_verdict, session)
}
