//! The structs of include/jdr.h have the sizes and places that this program gives them.

use second::answer::{Answer, BoxAnswer, DescriptionAnswer, PaintAnswer, TextAnswer};
use second::session::LentSession;
use std::io::Write;
use std::process::{Command, Stdio};

/// Whether a C compiler takes the header and finds that this holds of it.
fn compiles(claims: &[String]) -> bool {
    let mut source = "#include \"jdr.h\"\n".to_string();
    for (place, claim) in claims.iter().enumerate() {
        source += &format!("typedef char claim_{place}[({claim}) ? 1 : -1];\n");
    }
    let include = concat!("-I", env!("CARGO_MANIFEST_DIR"), "/../include");
    let mut compiler = Command::new("cc")
        .args([
            "-std=c99",
            "-pedantic",
            "-Wall",
            "-Wextra",
            "-Werror",
            "-fsyntax-only",
            include,
            "-x",
            "c",
            "-",
        ])
        .stdin(Stdio::piped())
        .stderr(Stdio::null())
        .spawn()
        .expect("a C compiler");
    compiler.stdin.take().expect("its input").write_all(source.as_bytes()).expect("all of the source");
    compiler.wait().expect("its end").success()
}

fn size(name: &str, size: usize) -> String {
    format!("sizeof(struct {name}) == {size}")
}

fn place(field: &str, place: usize) -> String {
    format!("offsetof(struct jdr_session, {field}) == {place}")
}

#[test]
fn structs_have_their_sizes() {
    let claims = [
        size("jdr_answer", size_of::<Answer>()),
        size("jdr_paint", size_of::<PaintAnswer>()),
        size("jdr_text", size_of::<TextAnswer>()),
        size("jdr_description", size_of::<DescriptionAnswer>()),
        size("jdr_box", size_of::<BoxAnswer>()),
        size("jdr_session", size_of::<LentSession>()),
        place("depth", 4 * LentSession::DEPTH),
        place("bytes", 4 * LentSession::BYTES),
    ];
    assert!(compiles(&claims));
}

#[test]
fn a_session_is_as_long_as_the_library_takes_it_to_be() {
    assert!(compiles(&[
        size("jdr_session", 328),
        place("parts", 48),
        place("members", 80),
        place("buffer", 144)
    ]));
}

#[test]
fn a_wrong_claim_does_not_compile() {
    assert!(!compiles(&[size("jdr_session", 327)]));
    assert!(!compiles(&[place("depth", 5)]));
    assert!(compiles(&[]));
}
