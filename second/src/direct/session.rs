//! A checking session as a program has it that cares for time and not for room: the pieces are joined and read at the end. What the
//! library's session costs, which keeps no bytes, is measured beside this.

use super::read;
use crate::answer::Answer;
use crate::session::MOST_BYTES;

#[derive(Default)]
pub struct Session {
    bytes: Vec<u8>,
    verdict: Option<Answer>,
}

impl Session {
    pub fn open(&mut self) {
        self.bytes.clear();
        self.verdict = None;
    }

    pub fn piece(&mut self, bytes: &[u8]) {
        if self.verdict.is_none() {
            let kept = bytes.len().min(MOST_BYTES - self.bytes.len());
            self.bytes.extend_from_slice(&bytes[..kept]);
        }
    }

    /// A read with no room judges and counts; 14 says that there is a table.
    pub fn verdict(&mut self) -> Answer {
        *self.verdict.get_or_insert_with(|| match read(&self.bytes, &mut [], &mut []) {
            Answer { number: 14, offset, rows, words } => Answer::new(0, offset, rows, words),
            refused => refused,
        })
    }
}
