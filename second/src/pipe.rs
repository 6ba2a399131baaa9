//! What the programs named `pipe` in `../examples` print: the verdict on what comes, piece by piece.

use crate::answer::Answer;
use crate::session::Session;
use std::io::{self, Read};

/// The line, and whether the plan is accepted; so many bytes at most are read at a time.
pub fn line(mut source: impl Read, most: usize) -> io::Result<(String, bool)> {
    let mut session = Session::default();
    session.open();
    let mut room = vec![0; most];
    loop {
        let length = source.read(&mut room)?;
        if length == 0 {
            break;
        }
        session.piece(&room[..length]);
    }
    let Answer { number, offset, rows, words } = session.verdict();
    Ok((format!("verdict: {number} {offset} {rows} {words}"), number == 0))
}
