//! The linked library: the C functions of the interface. A call that has a feature of its own is None without it, since a library
//! that lacks the call could not be linked.

use second::answer::{Answer, BoxAnswer, DescriptionAnswer, PaintAnswer, TextAnswer};
use second::session::LentSession;

#[link(name = "jdr_c", kind = "static")]
extern "C" {
    fn jdr_read(
        file: *const u8,
        file_len: usize,
        contents: *mut u32,
        contents_len: usize,
        bodies: *mut u32,
        bodies_len: usize,
    ) -> Answer;

    fn jdr_check(contents: *const u32, contents_len: usize, bodies: *const u32, bodies_len: usize) -> Answer;

    fn jdr_write(
        contents: *const u32,
        contents_len: usize,
        bodies: *const u32,
        bodies_len: usize,
        file: *mut u8,
        file_len: usize,
    ) -> Answer;

    #[cfg(feature = "list")]
    fn jdr_list(
        contents: *const u32,
        contents_len: usize,
        bodies: *const u32,
        bodies_len: usize,
        label: *const u16,
        label_len: usize,
        entries: *mut u32,
        entries_len: usize,
    ) -> Answer;

    #[cfg(feature = "box")]
    fn jdr_box(
        contents: *const u32,
        contents_len: usize,
        bodies: *const u32,
        bodies_len: usize,
        row: u32,
    ) -> BoxAnswer;

    #[cfg(feature = "paint")]
    fn jdr_paint(
        contents: *const u32,
        contents_len: usize,
        bodies: *const u32,
        bodies_len: usize,
        row: u32,
        which: u32,
    ) -> PaintAnswer;

    #[cfg(feature = "text")]
    fn jdr_text(
        contents: *const u32,
        contents_len: usize,
        bodies: *const u32,
        bodies_len: usize,
        row: u32,
    ) -> TextAnswer;

    #[cfg(feature = "description")]
    fn jdr_description(
        contents: *const u32,
        contents_len: usize,
        bodies: *const u32,
        bodies_len: usize,
        row: u32,
    ) -> DescriptionAnswer;

    #[cfg(feature = "sheet_write")]
    fn jdr_sheet_write(
        contents: *const u32,
        contents_len: usize,
        bodies: *const u32,
        bodies_len: usize,
        sheet: *mut u8,
        sheet_len: usize,
    ) -> Answer;

    #[cfg(feature = "sheet_read")]
    fn jdr_sheet_read(
        sheet: *const u8,
        sheet_len: usize,
        contents: *mut u32,
        contents_len: usize,
        bodies: *mut u32,
        bodies_len: usize,
    ) -> Answer;

    #[cfg(feature = "session")]
    fn jdr_session_open(session: *mut LentSession) -> Answer;

    #[cfg(feature = "session")]
    fn jdr_session_piece(session: *mut LentSession, bytes: *const u8, bytes_len: usize) -> Answer;

    #[cfg(feature = "session")]
    fn jdr_session_verdict(session: *mut LentSession) -> Answer;
}

/// A run that is lent for reading: a pointer and a length in elements.
pub type Given<T> = (*const T, usize);
/// A run that is lent for writing.
pub type Lent<T> = (*mut T, usize);

pub fn read(file: Given<u8>, contents: Lent<u32>, bodies: Lent<u32>) -> Answer {
    // Safety, here and below: each pointer comes from a run of that length that outlives the call,
    // and runs lent for writing overlap no other. Only an empty run may have any pointer.
    unsafe { jdr_read(file.0, file.1, contents.0, contents.1, bodies.0, bodies.1) }
}

pub fn check(contents: Given<u32>, bodies: Given<u32>) -> Answer {
    unsafe { jdr_check(contents.0, contents.1, bodies.0, bodies.1) }
}

pub fn write(contents: Given<u32>, bodies: Given<u32>, file: Lent<u8>) -> Answer {
    unsafe { jdr_write(contents.0, contents.1, bodies.0, bodies.1, file.0, file.1) }
}

#[cfg(feature = "list")]
pub fn list(
    contents: Given<u32>,
    bodies: Given<u32>,
    label: Given<u16>,
    entries: Lent<u32>,
) -> Option<Answer> {
    Some(unsafe {
        jdr_list(contents.0, contents.1, bodies.0, bodies.1, label.0, label.1, entries.0, entries.1)
    })
}

#[cfg(not(feature = "list"))]
pub fn list(_: Given<u32>, _: Given<u32>, _: Given<u16>, _: Lent<u32>) -> Option<Answer> {
    None
}

/// `jdr_box`, whose name is a word of the language here.
#[cfg(feature = "box")]
pub fn extent(contents: Given<u32>, bodies: Given<u32>, row: u32) -> Option<BoxAnswer> {
    Some(unsafe { jdr_box(contents.0, contents.1, bodies.0, bodies.1, row) })
}

#[cfg(not(feature = "box"))]
pub fn extent(_: Given<u32>, _: Given<u32>, _row: u32) -> Option<BoxAnswer> {
    None
}

#[cfg(feature = "paint")]
pub fn paint(contents: Given<u32>, bodies: Given<u32>, row: u32, which: u32) -> Option<PaintAnswer> {
    Some(unsafe { jdr_paint(contents.0, contents.1, bodies.0, bodies.1, row, which) })
}

#[cfg(not(feature = "paint"))]
pub fn paint(_: Given<u32>, _: Given<u32>, _row: u32, _which: u32) -> Option<PaintAnswer> {
    None
}

#[cfg(feature = "text")]
pub fn text(contents: Given<u32>, bodies: Given<u32>, row: u32) -> Option<TextAnswer> {
    Some(unsafe { jdr_text(contents.0, contents.1, bodies.0, bodies.1, row) })
}

#[cfg(not(feature = "text"))]
pub fn text(_: Given<u32>, _: Given<u32>, _row: u32) -> Option<TextAnswer> {
    None
}

#[cfg(feature = "description")]
pub fn description(contents: Given<u32>, bodies: Given<u32>, row: u32) -> Option<DescriptionAnswer> {
    Some(unsafe { jdr_description(contents.0, contents.1, bodies.0, bodies.1, row) })
}

#[cfg(not(feature = "description"))]
pub fn description(_: Given<u32>, _: Given<u32>, _row: u32) -> Option<DescriptionAnswer> {
    None
}

#[cfg(feature = "sheet_write")]
pub fn sheet_write(contents: Given<u32>, bodies: Given<u32>, sheet: Lent<u8>) -> Option<Answer> {
    Some(unsafe { jdr_sheet_write(contents.0, contents.1, bodies.0, bodies.1, sheet.0, sheet.1) })
}

#[cfg(not(feature = "sheet_write"))]
pub fn sheet_write(_: Given<u32>, _: Given<u32>, _: Lent<u8>) -> Option<Answer> {
    None
}

#[cfg(feature = "sheet_read")]
pub fn sheet_read(sheet: Given<u8>, contents: Lent<u32>, bodies: Lent<u32>) -> Option<Answer> {
    Some(unsafe { jdr_sheet_read(sheet.0, sheet.1, contents.0, contents.1, bodies.0, bodies.1) })
}

#[cfg(not(feature = "sheet_read"))]
pub fn sheet_read(_: Given<u8>, _: Lent<u32>, _: Lent<u32>) -> Option<Answer> {
    None
}

#[cfg(feature = "session")]
pub fn session_open(session: &mut LentSession) -> Option<Answer> {
    Some(unsafe { jdr_session_open(session) })
}

#[cfg(not(feature = "session"))]
pub fn session_open(_: &mut LentSession) -> Option<Answer> {
    None
}

#[cfg(feature = "session")]
pub fn session_piece(session: &mut LentSession, bytes: Given<u8>) -> Option<Answer> {
    Some(unsafe { jdr_session_piece(session, bytes.0, bytes.1) })
}

#[cfg(not(feature = "session"))]
pub fn session_piece(_: &mut LentSession, _: Given<u8>) -> Option<Answer> {
    None
}

#[cfg(feature = "session")]
pub fn session_verdict(session: &mut LentSession) -> Option<Answer> {
    Some(unsafe { jdr_session_verdict(session) })
}

#[cfg(not(feature = "session"))]
pub fn session_verdict(_: &mut LentSession) -> Option<Answer> {
    None
}
