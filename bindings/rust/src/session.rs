//! A plan that comes in pieces, checked as it comes and stored nowhere. Nothing here allocates.

use crate::calls::{self, SessionStruct};
use crate::refused::Refused;
use core::fmt;

/// What a session says of a good plan.
#[derive(Clone, Copy, Debug, PartialEq, Eq, Hash)]
pub struct Verdict {
    /// The bytes of its file.
    pub length: usize,
    /// The rows of its table, which are its objects.
    pub rows: usize,
    /// The words of its table's bodies.
    pub words: usize,
}

/// A check of a plan whose bytes come in pieces. It is 328 bytes, however long the plan is.
///
/// ```
/// # let pieces: [&[u8]; 2] = [b"\0J\0", b"D\0R"];
/// let mut session = jdr::Session::new();
/// for piece in pieces {
///     session.feed(piece);
/// }
/// match session.verdict() {
///     Ok(verdict) => println!("a good plan of {} objects", verdict.rows),
///     Err(refused) => println!("the plan is refused: {refused}"),
/// }
/// # assert_eq!(session.verdict().map_err(|refused| (refused.reason, refused.offset)), Err((jdr::Reason::Cut, 6)));
/// ```
///
/// However the plan is cut, the verdict is what [`crate::TableRef::room`] says of all its bytes. A clone goes on by itself.
#[derive(Clone)]
pub struct Session {
    session: SessionStruct,
}

impl Session {
    /// A session that was given no byte.
    pub fn new() -> Session {
        let mut session = SessionStruct::ZERO;
        calls::session_open(&mut session);
        Session { session }
    }

    /// Begins anew, as if no byte had been given.
    pub fn open(&mut self) {
        calls::session_open(&mut self.session);
    }

    /// Gives the next bytes of the plan, however many, none too. A fault in them is told by the verdict; after a verdict nothing changes.
    pub fn feed(&mut self, piece: &[u8]) {
        calls::session_piece(&mut self.session, piece).accepted().expect("a session that was opened");
    }

    /// The verdict on the bytes so far. It spends the session, a refusal too: asked again it is the same, until [`Session::open`]. To ask
    /// before the end and go on, ask a clone.
    pub fn verdict(&mut self) -> Result<Verdict, Refused> {
        let given = calls::session_verdict(&mut self.session).accepted()?;
        Ok(Verdict { length: given.offset as usize, rows: given.rows as usize, words: given.words as usize })
    }
}

impl Default for Session {
    fn default() -> Session {
        Session::new()
    }
}

impl fmt::Debug for Session {
    fn fmt(&self, f: &mut fmt::Formatter<'_>) -> fmt::Result {
        f.debug_struct("Session").field("bytes", &self.session.bytes).finish_non_exhaustive()
    }
}
