//! A checking session (02, R-6): the plainest one. It keeps the pieces, and reads them as one file when it is asked.

use crate::answer::Answer;
use crate::read;
use crate::table;
use crate::version::{DEEPEST_GROUP, LONGEST_FILE};

/// 'The count of bytes is over the length limit plus one': an opened session counts no further than this.
pub const MOST_BYTES: usize = LONGEST_FILE + 1;

/// The number of what is no session that opening began.
pub const NO_SESSION: u32 = 22;

#[derive(Clone, Default)]
pub struct Session {
    /// The pieces so far, joined. A file that is too long is so whatever comes behind, and is not kept.
    bytes: Vec<u8>,
    /// Once it was given.
    verdict: Option<Answer>,
}

impl Session {
    /// 'Opening always answers 0 and begins anew', whatever it is lent.
    pub fn open(&mut self) -> Answer {
        *self = Session::default();
        Answer::default()
    }

    /// 'Each piece answers 0 too, with offset and counts 0'; after a verdict it changes nothing.
    pub fn piece(&mut self, bytes: &[u8]) -> Answer {
        if self.verdict.is_none() {
            let kept = bytes.len().min(MOST_BYTES - self.bytes.len());
            self.bytes.extend_from_slice(&bytes[..kept]);
        }
        Answer::default()
    }

    /// 'Any verdict, a refusal too, spends the session', and is repeated.
    pub fn verdict(&mut self) -> Answer {
        *self.verdict.get_or_insert_with(|| of_file(&self.bytes))
    }

    pub fn is_spent(&self) -> bool {
        self.verdict.is_some()
    }
}

/// The reader's answer 'with room enough': never 14 or 15.
pub fn of_file(file: &[u8]) -> Answer {
    match read::drawing(file) {
        Err(refusal) => Answer::refused(refusal.number, refusal.offset),
        Ok(drawing) => {
            let table = table::of(&drawing);
            Answer::new(0, file.len() as u32, table.rows(), table.words())
        }
    }
}

/// `struct jdr_session` of the C interface, as words: only two of its fields have a meaning outside the library.
#[repr(C, align(8))]
#[derive(Clone, Copy, PartialEq, Eq)]
pub struct LentSession {
    pub words: [u32; LentSession::WORDS],
}

impl LentSession {
    pub const WORDS: usize = 82;
    /// Which words are the fields `depth` and `bytes`.
    pub const DEPTH: usize = 1;
    pub const BYTES: usize = 2;

    /// Whether a piece and a verdict are refused with 22: by the depth and the count of bytes that the session holds.
    pub fn is_refused(&self) -> bool {
        self.words[LentSession::DEPTH] > DEEPEST_GROUP || self.words[LentSession::BYTES] as usize > MOST_BYTES
    }
}
