//! A session of either side that is given the same pieces, and one comparison for each call.

use super::calls::{words, Comparer};
use super::report::Call;
use super::runs::Run;
use crate::library;
use second::answer::Answer;
use second::session::{LentSession, Session, NO_SESSION};

/// Where lent memory is not what it has to be, by its name.
type Memory = Vec<(&'static str, Option<isize>)>;

/// What was asked of a session: so many pieces of one length, one after the other, or another call.
#[derive(Clone, Copy)]
enum Step {
    Open,
    Pieces { count: usize, length: usize },
    Verdict,
}

/// This program's session and the library's, which lies between guard zones.
#[derive(Clone)]
pub struct Pair {
    ours: Session,
    theirs: Run<LentSession>,
    before: Run<LentSession>,
    /// All pieces since it was opened, and the calls, for what is written down.
    joined: Vec<u8>,
    steps: Vec<Step>,
}

impl Pair {
    /// The library's session holds this before it is opened.
    pub fn new(comparer: &mut Comparer, holding: LentSession) -> Pair {
        let fill = LentSession { words: [comparer.random.word(); LentSession::WORDS] };
        let theirs = Run::holding(&mut comparer.random, &[holding], fill);
        let (joined, steps) = (Vec::new(), Vec::new());
        Pair { ours: Session::default(), before: theirs.clone(), theirs, joined, steps }
    }

    pub fn lent(&self) -> LentSession {
        self.theirs.inner()[0]
    }

    fn lent_mut(&mut self) -> &mut LentSession {
        &mut self.theirs.inner_mut()[0]
    }

    /// Where memory around the session has changed.
    fn around(&mut self) -> (&'static str, Option<isize>) {
        self.before.inner_mut().copy_from_slice(self.theirs.inner());
        ("around the session", self.theirs.first_difference(&self.before))
    }

    fn add_piece(&mut self, bytes: &[u8]) {
        self.joined.extend_from_slice(bytes);
        match self.steps.last_mut() {
            Some(Step::Pieces { count, length }) if *length == bytes.len() => *count += 1,
            _ => self.steps.push(Step::Pieces { count: 1, length: bytes.len() }),
        }
    }

    /// The calls so far, as `open, 2 pieces of 40, verdict`.
    fn told(&self) -> String {
        let told = self.steps.iter().map(|step| match step {
            Step::Open => "open".to_string(),
            Step::Pieces { count, length } => format!("{count} pieces of {length}"),
            Step::Verdict => "verdict".to_string(),
        });
        told.collect::<Vec<_>>().join(", ")
    }
}

impl Comparer {
    pub fn session_open(&mut self, pair: &mut Pair) {
        pair.steps = vec![Step::Open];
        pair.joined.clear();
        let ours = pair.ours.open();
        let Some(theirs) = library::session_open(pair.lent_mut()) else {
            return;
        };
        let memory = vec![pair.around()];
        self.session_compared(Call::SessionOpen, pair, ours, theirs, memory);
    }

    /// The piece is lent alone, so that what comes next cannot be looked at.
    pub fn session_piece(&mut self, pair: &mut Pair, bytes: &[u8]) {
        pair.add_piece(bytes);
        let ours = pair.ours.piece(bytes);
        let before = pair.lent();
        let Some((theirs, mut memory)) = self.lend_piece(pair, bytes) else {
            return;
        };
        // 'More pieces change nothing' once there was a verdict.
        let changed = pair.ours.is_spent() && pair.lent() != before;
        memory.push(("the spent session", changed.then_some(0)));
        self.session_compared(Call::SessionPiece, pair, ours, theirs, memory);
    }

    /// Gives this program's answer.
    pub fn session_verdict(&mut self, pair: &mut Pair) -> Answer {
        pair.steps.push(Step::Verdict);
        let ours = pair.ours.verdict();
        let Some(theirs) = library::session_verdict(pair.lent_mut()) else {
            return ours;
        };
        let memory = vec![pair.around()];
        self.session_compared(Call::SessionVerdict, pair, ours, theirs, memory);
        ours
    }

    /// A piece for a session that opening did not begin.
    pub fn made_up_piece(&mut self, pair: &mut Pair, bytes: &[u8]) {
        pair.add_piece(bytes);
        let before = pair.lent();
        if let Some((theirs, memory)) = self.lend_piece(pair, bytes) {
            self.made_up_compared(Call::SessionPiece, pair, before, theirs, memory);
        }
    }

    /// The verdict of a session that opening did not begin.
    pub fn made_up_verdict(&mut self, pair: &mut Pair) {
        pair.steps.push(Step::Verdict);
        let before = pair.lent();
        if let Some(theirs) = library::session_verdict(pair.lent_mut()) {
            let memory = vec![pair.around()];
            self.made_up_compared(Call::SessionVerdict, pair, before, theirs, memory);
        }
    }

    fn lend_piece(&mut self, pair: &mut Pair, bytes: &[u8]) -> Option<(Answer, Memory)> {
        let fill = self.random.word() as u8;
        let given = Run::holding(&mut self.random, bytes, fill);
        let given_before = given.clone();
        let theirs = library::session_piece(pair.lent_mut(), given.given())?;
        Some((theirs, vec![("bytes", given.first_difference(&given_before))]))
    }

    /// 22 exactly as the depth and the count of bytes say, 'leaving the session unchanged'. Of any other made-up session only this is
    /// promised: that the answer is not 22.
    fn made_up_compared(
        &mut self,
        call: Call,
        pair: &Pair,
        before: LentSession,
        theirs: Answer,
        mut memory: Memory,
    ) {
        let refused = before.is_refused();
        let ours = match (refused, theirs.number) {
            (true, _) => Answer::refused(NO_SESSION, 0),
            (false, NO_SESSION) => Answer::default(),
            (false, _) => theirs,
        };
        memory.push(("the refused session", (refused && pair.lent() != before).then_some(0)));
        let detail = || format!("{}; the session before: {:08x?}", pair.told(), before.words);
        let data = || pair.joined.clone();
        self.report.compared(call, &words(ours), &words(theirs), memory, detail, data);
    }

    fn session_compared(&mut self, call: Call, pair: &Pair, ours: Answer, theirs: Answer, memory: Memory) {
        let data = || pair.joined.clone();
        self.report.compared(call, &words(ours), &words(theirs), memory, || pair.told(), data);
    }
}
