//! What a round asks of sessions: its file and damaged ones, cut in every way; and sessions with made-up contents.

use super::calls::Comparer;
use super::rounds::times;
use super::session_calls::Pair;
use second::damage::cuts;
use second::damage::fields::Field;
use second::damage::files;
use second::random::Random;
use second::session::LentSession;
use second::version::LONGEST_FILE;

/// Files of fewer bytes are cut everywhere.
const SMALL: usize = 500;

/// The fields are those of the good file.
pub fn round(comparer: &mut Comparer, file: &[u8], fields: &[Field]) {
    if !cfg!(feature = "session") {
        return;
    }
    comparer.report.in_sessions("rounds", 1);
    let mut pair = made_up_pair(comparer, None);
    byte_by_byte(comparer, &mut pair, file);
    in_pieces(comparer, &mut pair, file);
    for _ in 0..times(file.len(), 12) {
        let damaged = files::any(&mut comparer.random, file, fields);
        match comparer.random.below(6) {
            0 => byte_by_byte(comparer, &mut pair, &damaged),
            1 => asked_in_the_middle(comparer, &mut pair, &damaged),
            _ => in_pieces(comparer, &mut pair, &damaged),
        }
    }
    if file.len() < SMALL && comparer.random.once_in(40) {
        let damaged = files::any(&mut comparer.random, file, fields);
        for file in [file, &damaged] {
            every_cut(comparer, &mut pair, file);
            every_beginning(comparer, &mut pair, file);
        }
    }
    if comparer.random.once_in(40) {
        let damaged = files::any(&mut comparer.random, file, fields);
        for file in [file, &damaged] {
            grown(comparer, &mut pair, file);
        }
    }
    for _ in 0..times(file.len(), 4) {
        made_up(comparer, file);
    }
}

/// A session that holds something else before it is opened: made-up contents, or what another one holds with some of it changed.
fn made_up_pair(comparer: &mut Comparer, from: Option<LentSession>) -> Pair {
    let holding = contents(&mut comparer.random, from);
    Pair::new(comparer, holding)
}

fn open(comparer: &mut Comparer, pair: &mut Pair, sort: &'static str) {
    comparer.report.in_sessions(sort, 1);
    comparer.session_open(pair);
}

fn give(comparer: &mut Comparer, pair: &mut Pair, file: &[u8], cuts: &[usize]) {
    comparer.report.in_sessions("cuts", cuts.len());
    for piece in cuts::pieces(file, cuts) {
        comparer.session_piece(pair, piece);
    }
}

/// Large files seldom: each piece is a call.
fn byte_by_byte(comparer: &mut Comparer, pair: &mut Pair, file: &[u8]) {
    if file.len() > 1_000 && !comparer.random.once_in(20) {
        return in_pieces(comparer, pair, file);
    }
    open(comparer, pair, "byte by byte");
    let cuts: Vec<usize> = (1..file.len()).collect();
    give(comparer, pair, file, &cuts);
    comparer.session_verdict(pair);
}

/// Random pieces, empty ones among them; then more pieces, which change nothing, and the verdict once more.
fn in_pieces(comparer: &mut Comparer, pair: &mut Pair, file: &[u8]) {
    open(comparer, pair, "in pieces");
    if comparer.random.once_in(4) {
        // some other beginning, which is left and never asked about
        let kept = comparer.random.within(0, file.len());
        comparer.session_piece(pair, &file[file.len() - kept..]);
        open(comparer, pair, "begun twice");
    }
    let cuts = cuts::any(&mut comparer.random, file.len());
    give(comparer, pair, file, &cuts);
    comparer.session_verdict(pair);
    if comparer.random.once_in(3) {
        after_the_verdict(comparer, pair, file);
    }
}

/// The verdict on a beginning, of a copy and of the session itself; what comes behind it changes nothing. Then the same file anew.
fn asked_in_the_middle(comparer: &mut Comparer, pair: &mut Pair, file: &[u8]) {
    open(comparer, pair, "asked in the middle");
    let middle = comparer.random.within(0, file.len());
    let cuts = cuts::any(&mut comparer.random, middle);
    give(comparer, pair, &file[..middle], &cuts);
    let mut copy = pair.clone();
    comparer.session_verdict(pair);
    after_the_verdict(comparer, pair, &file[middle..]);
    give(comparer, &mut copy, &file[middle..], &[]);
    comparer.session_verdict(&mut copy);
    in_pieces(comparer, pair, file);
}

fn after_the_verdict(comparer: &mut Comparer, pair: &mut Pair, file: &[u8]) {
    let cuts = cuts::any(&mut comparer.random, file.len());
    give(comparer, pair, file, &cuts);
    comparer.session_verdict(pair);
}

/// Each single cut, in one session that is opened again and again.
fn every_cut(comparer: &mut Comparer, pair: &mut Pair, file: &[u8]) {
    for cut in 0..=file.len() {
        open(comparer, pair, "one cut");
        give(comparer, pair, file, &[cut]);
        comparer.session_verdict(pair);
    }
}

/// The verdict on each beginning: of a copy, since it spends the session.
fn every_beginning(comparer: &mut Comparer, pair: &mut Pair, file: &[u8]) {
    open(comparer, pair, "asked after each byte");
    for place in 0..=file.len() {
        comparer.session_verdict(&mut pair.clone());
        if place < file.len() {
            comparer.session_piece(pair, &file[place..=place]);
        }
    }
}

/// The file grown to the limit and past it, whatever fault it has; in each case the bytes behind it may come in one piece or in many.
fn grown(comparer: &mut Comparer, pair: &mut Pair, file: &[u8]) {
    let far = comparer.random.within(LONGEST_FILE + 3, 2 * LONGEST_FILE + 9);
    for length in [LONGEST_FILE - 1, LONGEST_FILE, LONGEST_FILE + 1, LONGEST_FILE + 2, far] {
        let mut long = file[..file.len().min(length)].to_vec();
        long.resize(length, comparer.random.byte(1));
        open(comparer, pair, "grown to the limit or past it");
        let cuts = cuts::any(&mut comparer.random, length);
        give(comparer, pair, &long, &cuts);
        let mut copy = pair.clone();
        comparer.session_verdict(pair);
        // one byte more, behind a length that may be the last good one
        comparer.session_piece(&mut copy, &[0]);
        comparer.session_verdict(&mut copy);
    }
}

/// Calls with made-up contents; at the end such a session can be opened, and is as good as any.
fn made_up(comparer: &mut Comparer, file: &[u8]) {
    let mut honest = made_up_pair(comparer, None);
    comparer.session_open(&mut honest);
    let middle = comparer.random.within(0, file.len());
    comparer.session_piece(&mut honest, &file[..middle]);
    let from = if comparer.random.flag() { Some(honest.lent()) } else { None };
    let mut pair = made_up_pair(comparer, from);
    comparer.report.in_sessions("made up", 1);
    for _ in 0..comparer.random.within(1, 6) {
        if comparer.random.once_in(3) {
            comparer.made_up_verdict(&mut pair);
        } else {
            let start = comparer.random.within(0, file.len());
            let end = comparer.random.within(start, file.len());
            comparer.made_up_piece(&mut pair, &file[start..end]);
        }
    }
    in_pieces(comparer, &mut pair, file);
}

/// Numbers at an edge of what a session may hold.
const EDGES: [u32; 16] =
    [0, 1, 2, 3, 15, 16, 17, 24, 183, 184, 65_534, 65_535, 65_536, 65_537, 0x8000_0000, u32::MAX];

fn some_word(random: &mut Random) -> u32 {
    match random.below(3) {
        0 => *random.pick(&EDGES),
        1 => random.below(64) as u32,
        _ => random.word(),
    }
}

/// Any words; or those of an honest session, some of them changed. Depth and count of bytes are often such that the session is taken.
fn contents(random: &mut Random, from: Option<LentSession>) -> LentSession {
    let mut session = LentSession { words: [some_word(random); LentSession::WORDS] };
    if let Some(honest) = from {
        session = honest;
        for _ in 0..random.within(0, 4) {
            session.words[random.below(LentSession::WORDS)] = some_word(random);
        }
    } else if !random.once_in(4) {
        session.words = session.words.map(|_| some_word(random));
    }
    if random.flag() {
        session.words[LentSession::DEPTH] = random.within(0, 18) as u32;
        session.words[LentSession::BYTES] = random.within(0, LONGEST_FILE + 3) as u32;
    }
    session
}
