//! The direct session gives the plain one's verdicts.

use second::damage::fields::of_file;
use second::damage::{cuts, files};
use second::generate;
use second::random::Random;
use second::session::Session;
use second::version::{Version, LONGEST_FILE};
use second::{direct, write};

/// Verdicts in the middle and at the end.
fn alike(random: &mut Random, session: &mut direct::Session, file: &[u8]) {
    let mut plain = Session::default();
    session.open();
    for piece in cuts::pieces(file, &cuts::any(random, file.len())) {
        plain.piece(piece);
        session.piece(piece);
        if random.once_in(20) {
            assert_eq!(plain.verdict(), session.verdict(), "{file:02x?}");
        }
    }
    assert_eq!(plain.verdict(), session.verdict(), "{file:02x?}");
}

#[test]
fn good_and_damaged_files() {
    let mut random = Random::new(5);
    let mut session = direct::Session::default();
    for seed in 0..60 {
        let drawing = generate::drawing(seed, Version::ALL[seed as usize % 6], 500);
        let (file, fields) = (write::file(&drawing), of_file(&drawing));
        alike(&mut random, &mut session, &file);
        for _ in 0..20 {
            let damaged = files::any(&mut random, &file, &fields);
            alike(&mut random, &mut session, &damaged);
        }
    }
}

#[test]
fn files_at_the_limit() {
    let mut random = Random::new(6);
    let mut session = direct::Session::default();
    for length in [LONGEST_FILE, LONGEST_FILE + 1, 100_000] {
        alike(&mut random, &mut session, &vec![0; length]);
    }
}
