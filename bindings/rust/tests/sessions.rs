//! Sessions: every committed case by the calls over a lent struct and by `Session`, and every example plan however it is cut.

mod common;

use common::{cases, hash, path, plan, Case, FILL, FILL_BYTE};
use jdr::calls::{self, Answer, SessionStruct};
use jdr::{Reason, Refused, Session, TableRef, Verdict, ROW_WORDS};
use std::fs;

const LONGEST: usize = 65_535;

/// The bytes between the cuts; a cut behind the end is at the end.
fn pieces<'a>(part: &'a [u8], cuts: &[usize]) -> Vec<&'a [u8]> {
    let ends: Vec<usize> = cuts.iter().map(|cut| *cut.min(&part.len())).collect();
    let starts = std::iter::once(0).chain(ends.iter().copied());
    starts.zip(ends.iter().copied().chain([part.len()])).map(|(start, end)| &part[start..end]).collect()
}

/// A session that was given these pieces.
fn fed<'a>(pieces: impl IntoIterator<Item = &'a [u8]>) -> Session {
    let mut session = Session::new();
    pieces.into_iter().for_each(|piece| session.feed(piece));
    session
}

/// What the reader says of the same bytes.
fn read(file: &[u8]) -> Result<Verdict, Refused> {
    let room = TableRef::room(file)?;
    Ok(Verdict { length: file.len(), rows: room.contents / ROW_WORDS, words: room.bodies })
}

/// The struct of a session that was not opened.
fn made_up(depth: u32, bytes: u32) -> SessionStruct {
    let wide = u64::from(FILL) << 32 | u64::from(FILL);
    SessionStruct {
        spent: FILL,
        depth,
        bytes,
        number: FILL,
        offset: FILL,
        rows: FILL,
        words: FILL,
        version: FILL,
        stage: FILL,
        width: FILL,
        segments: FILL,
        held: FILL,
        parts: wide,
        run: wide,
        x: wide,
        y: wide,
        members: [FILL; 16],
        buffer: [FILL_BYTE; 184],
    }
}

fn words(answer: Answer) -> [u32; 4] {
    [answer.number, answer.offset, answer.rows, answer.words]
}

fn line(answer: Answer) -> String {
    words(answer).map(|word| word.to_string()).join(" ")
}

/// A line's group: the verdict, and the hash of what was answered before it.
fn given(session: &mut SessionStruct, first: Option<Answer>, part: &[u8], cuts: &[usize]) -> String {
    let mut answers: Vec<Answer> = first.into_iter().collect();
    answers.extend(pieces(part, cuts).into_iter().map(|piece| calls::session_piece(session, piece)));
    let of_pieces = hash(answers.into_iter().flat_map(words));
    format!("{} {of_pieces}", line(calls::session_verdict(session)))
}

/// The same of a spent session, and whether it is as it was.
fn spent(session: &mut SessionStruct, part: &[u8], cuts: &[usize]) -> String {
    let before = *session;
    let group = given(session, None, part, cuts);
    format!("{group} {}", u32::from(*session == before))
}

/// A call with a session that was not opened, which is refused or of which nothing is promised.
fn refused(mut session: SessionStruct, call: impl Fn(&mut SessionStruct) -> Answer) -> String {
    let before = session;
    let answer = call(&mut session);
    match Reason::NoSession.number() == answer.number {
        true => format!("{} {}", line(answer), u32::from(session == before)),
        false => String::from("-"),
    }
}

/// A case: what its data holds.
struct Given<'a> {
    made_up: SessionStruct,
    middle: usize,
    cuts: Vec<usize>,
    file: &'a [u8],
}

fn given_by(case: &Case) -> Given<'_> {
    let word =
        |place: usize| u32::from_be_bytes(case.data[4 * place..4 * place + 4].try_into().expect("a word"));
    let count = word(3) as usize;
    Given {
        made_up: made_up(word(0), word(1)),
        middle: word(2) as usize,
        cuts: (4..4 + count).map(|place| word(place) as usize).collect(),
        file: &case.data[4 * (4 + count)..],
    }
}

#[test]
fn cases_by_the_struct() {
    for case in cases("session") {
        let Given { made_up, middle, cuts, file } = given_by(&case);
        let mut session = made_up;
        let mut groups = Vec::new();
        for (part, rest) in [(file, file), (&file[..middle], &file[middle..])] {
            let opened = calls::session_open(&mut session);
            groups.push(given(&mut session, Some(opened), part, &cuts));
            groups.push(spent(&mut session, rest, &cuts));
        }
        groups.push(refused(made_up, |session| calls::session_piece(session, file)));
        groups.push(refused(made_up, calls::session_verdict));
        assert_eq!(groups, case.groups, "{}", case.name);
    }
}

#[test]
fn cases_by_the_session() {
    for case in cases("session") {
        let Given { middle, cuts, file, .. } = given_by(&case);
        let mut session = Session::new();
        for (place, part) in [(0, file), (2, &file[..middle])] {
            for _ in 0..2 {
                pieces(part, &cuts).into_iter().for_each(|piece| session.feed(piece));
                let said = match session.verdict() {
                    Ok(Verdict { length, rows, words }) => format!("0 {length} {rows} {words}"),
                    Err(refused) => format!("{} {} 0 0", refused.number(), refused.offset),
                };
                assert!(case.groups[place].starts_with(&(said + " ")), "{}", case.name);
            }
            session.open();
        }
    }
}

#[test]
fn every_cut_of_every_plan() {
    // the sheets too, which are no plans
    for entry in fs::read_dir(path("examples/plans")).expect("the plans") {
        let file = fs::read(entry.expect("a plan").path()).expect("its bytes");
        let wanted = read(&file);
        assert_eq!(fed([&file[..]]).verdict(), wanted);
        assert_eq!(fed(file.chunks(1)).verdict(), wanted);
        for cut in 0..=file.len() {
            assert_eq!(fed(pieces(&file, &[cut])).verdict(), wanted, "cut at {cut}");
        }
    }
}

#[test]
fn every_beginning_by_a_clone() {
    let file = plan("hall.jdr");
    let mut session = Session::default();
    for (at, piece) in file.chunks(1).enumerate() {
        assert_eq!(session.clone().verdict(), read(&file[..at]), "{at}");
        session.feed(piece);
    }
    assert_eq!(session.verdict(), Ok(Verdict { length: 522, rows: 8, words: 178 }));
}

#[test]
fn a_verdict_is_repeated_until_opened() {
    let file = plan("hall.jdr");
    for end in [0, 100, file.len()] {
        let mut session = fed([&file[..end]]);
        let wanted = session.verdict();
        assert_eq!(wanted, read(&file[..end]));
        session.feed(&file);
        assert_eq!([session.verdict(), session.verdict()], [wanted; 2]);
        session.open();
        assert_eq!(session.clone().verdict(), read(&[]));
        session.feed(&file);
        assert_eq!(session.verdict(), read(&file));
    }
}

#[test]
fn a_plan_that_grows_too_long() {
    for begun in [&plan("hall.jdr")[..], b"no plan", b""] {
        let mut long = fed([begun, &vec![0; LONGEST - begun.len()]]);
        assert!(long.clone().verdict().is_err_and(|refused| refused.reason != Reason::TooLong));
        long.feed(&[0]);
        let refused = long.verdict().expect_err("a byte too many");
        assert_eq!((refused.reason, refused.offset as usize), (Reason::TooLong, LONGEST));
        assert_eq!(format!("{:?}", fed([begun])), format!("Session {{ bytes: {}, .. }}", begun.len()));
    }
}

/// The struct has the fields of include/jdr.h, in its order; the crate does not compile where the size is another.
#[test]
fn the_struct_has_the_fields_of_the_header() {
    let header = fs::read_to_string(path("include/jdr.h")).expect("the header");
    let declared = header.split("struct jdr_session {\n").nth(1).and_then(|rest| rest.split("};").next());
    let source = fs::read_to_string(path("bindings/rust/src/calls.rs")).expect("the source");
    let struct_of =
        source.split("pub struct SessionStruct {\n").nth(1).and_then(|rest| rest.split("}\n").next());
    let mine: Vec<String> = struct_of
        .expect("the struct")
        .lines()
        .filter_map(|line| line.trim().strip_prefix("pub "))
        .map(|field| field.trim_end_matches(',').to_string())
        .collect();
    let mut wanted = Vec::new();
    for line in declared.expect("the declaration").lines() {
        let (kind, names) = line.trim().trim_end_matches(';').split_once(' ').expect("a kind and names");
        let kind = kind.replace("uint", "u").replace("_t", "");
        for name in names.split(", ") {
            wanted.push(match name.trim_end_matches(']').split_once('[') {
                Some((name, count)) => format!("{name}: [{kind}; {count}]"),
                None => format!("{name}: {kind}"),
            });
        }
    }
    assert_eq!(mine, wanted);
}
