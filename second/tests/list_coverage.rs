//! What the list cases hold between them: labels of every kind, depths, and every paint and text of every version.

use second::answer::{Color, PaintAnswer, TextAnswer};
use second::ask;
use second::check::{self, Good};
use second::list;
use second::make::{lists, Case};
use second::model::Chars;
use second::version::Version;
use std::collections::BTreeSet;

/// A case whose table is good: the table, the label, and the rows that are asked about.
struct Asked {
    good: Good,
    label: Chars,
    rows: u32,
}

/// The runs of a data file: two counts, the contents and bodies that they count, and the label.
fn asked(case: &Case) -> Option<Asked> {
    let word = |bytes: &[u8]| u32::from_be_bytes(bytes.try_into().unwrap());
    let words: Vec<u32> = case.data.chunks_exact(4).map(word).collect();
    let (counts, runs) = words.split_at(2);
    let (contents, rest) = runs.split_at(counts[0] as usize);
    let (bodies, label) = rest.split_at(counts[1] as usize);
    let good = check::good(contents, bodies)?;
    let label = label.iter().map(|char| u16::try_from(*char).unwrap()).collect();
    let rows = case.groups.iter().filter(|group| group.contains(": ")).count() as u32;
    Some(Asked { good, label, rows })
}

/// The good cases of a version.
fn cases(version: Version) -> Vec<Asked> {
    let all = lists::cases(1);
    all.iter().filter_map(asked).filter(|asked| asked.good.drawing.version == version).collect()
}

fn paint(asked: &Asked, row: u32, which: u32) -> PaintAnswer {
    ask::paint(Some(&asked.good), row, which)
}

#[test]
fn labels_are_there_once_often_and_never() {
    for version in Version::ALL.into_iter().filter(|version| version.has_descriptions()) {
        let mut once = BTreeSet::new();
        let mut often = BTreeSet::new();
        let mut never = BTreeSet::new();
        for asked in cases(version) {
            match list::entries(&asked.good.drawing, &asked.label).len() {
                0 => never.insert(asked.label),
                1 => once.insert(asked.label),
                _ => often.insert(asked.label),
            };
        }
        assert!(!once.is_empty() && !never.is_empty() && often.len() >= 5, "{version:?}");
        assert!(often.contains(&Chars::new()), "{version:?}: the empty label");
        let there: Vec<&Chars> = once.union(&often).collect();
        for char in [0, 0xFFFF] {
            assert!(there.iter().any(|label| label.contains(&char)), "{version:?}: a char {char}");
        }
        let begins = |one: &Chars, other: &Chars| !one.is_empty() && one != other && other.starts_with(one);
        let prefixes = there.iter().filter(|one| there.iter().any(|other| begins(one, other)));
        assert!(prefixes.count() >= 4, "{version:?}: labels that begin others");
    }
}

#[test]
fn below_descriptions_the_empty_label_is_everywhere_and_others_nowhere() {
    for version in Version::ALL.into_iter().filter(|version| !version.has_descriptions()) {
        for Asked { good, label, .. } in cases(version) {
            let entries = list::entries(&good.drawing, &label).len() as u32;
            assert_eq!(entries, if label.is_empty() { good.table.rows() } else { 0 });
        }
    }
}

#[test]
fn one_label_is_at_every_depth_and_one_at_some() {
    for version in Version::ALL.into_iter().filter(|version| version.has_descriptions()) {
        let depths = |asked: &Asked| -> BTreeSet<usize> {
            let around = list::groups_around(&asked.good.drawing);
            let entries = list::entries(&asked.good.drawing, &asked.label);
            entries.into_iter().map(|row| around[row as usize].len() + 1).collect()
        };
        let all: Vec<BTreeSet<usize>> = cases(version).iter().map(depths).collect();
        let every = |depths: &BTreeSet<usize>| (1..=16).all(|depth| depths.contains(&depth));
        let some = |depths: &BTreeSet<usize>| depths.contains(&16) && depths.len() > 5 && !every(depths);
        assert!(all.iter().any(every) && all.iter().any(some), "{version:?}");
    }
}

/// Each paint that was answered, as the part that was asked for, its form and its colours' kinds.
fn paints(version: Version) -> BTreeSet<(u32, u32, u32, u32)> {
    let mut seen = BTreeSet::new();
    for asked in cases(version) {
        for (row, which) in (0..asked.rows).flat_map(|row| [0, 1, 2].map(|which| (row, which))) {
            let PaintAnswer { number, form, first, second, .. } = paint(&asked, row, which);
            if number == 0 {
                seen.insert((which, form, first.kind, second.kind));
            }
        }
    }
    seen
}

#[test]
fn every_paint_of_every_version_is_asked_for() {
    for version in Version::ALL {
        let seen = paints(version);
        let kinds = version.plain_letters().len() as u32;
        let forms = 1..=(version.paint_letters().len() as u32 - kinds);
        for which in 0..3 {
            for kind in 0..kinds {
                assert!(seen.contains(&(which, 0, kind, 0)), "{version:?}: part {which}, kind {kind}");
            }
            for form in forms.clone() {
                assert!(
                    seen.iter().any(|paint| (paint.0, paint.1) == (which, form)),
                    "{version:?}: {which} {form}"
                );
            }
        }
        for (form, kind) in forms.flat_map(|form| (0..kinds).map(move |kind| (form, kind))) {
            assert!(
                seen.iter().any(|paint| paint.1 == form && paint.2 == kind),
                "{version:?}: {form} {kind} first"
            );
            assert!(
                seen.iter().any(|paint| paint.1 == form && paint.3 == kind),
                "{version:?}: {form} {kind} second"
            );
        }
    }
}

#[test]
fn all_rows_of_most_tables_are_asked_about_and_one_more() {
    for version in Version::ALL {
        for Asked { good, rows, .. } in cases(version) {
            assert_eq!(rows, good.table.rows().min(40) + 1);
        }
        assert!(cases(version).iter().filter(|asked| asked.good.table.rows() <= 40).count() >= 3);
    }
}

#[test]
fn components_of_negative_zero_are_asked_for() {
    let zero = |color: &Color| color.c.iter().any(|component| component.to_bits() == 0x8000_0000);
    for version in Version::ALL {
        for which in 0..3 {
            let cases = cases(version);
            let rows = |asked: &Asked| 0..asked.rows;
            let mut answers =
                cases.iter().flat_map(|asked| rows(asked).map(move |row| paint(asked, row, which)));
            assert!(
                answers.any(|paint| zero(&paint.first) || zero(&paint.second)),
                "{version:?}: part {which}"
            );
        }
    }
}

/// The rows of a case that are texts along paths and are asked about.
fn texts_along_paths(asked: &Asked) -> Vec<u32> {
    (0..asked.rows).filter(|row| asked.good.table.row(*row).is_some_and(|words| words[0] == 5)).collect()
}

#[test]
fn texts_along_paths_are_listed_and_asked_about() {
    for version in Version::ALL {
        let mut colors = BTreeSet::new();
        let mut alternatives = BTreeSet::new();
        let mut listed = 0;
        for asked in cases(version) {
            let entries = list::entries(&asked.good.drawing, &asked.label);
            for row in texts_along_paths(&asked) {
                let answer = paint(&asked, row, 2);
                colors.insert((answer.form, answer.first.kind));
                alternatives.insert(ask::text(Some(&asked.good), row).alternative_length > 0);
                assert_eq!([0, 1, 3].map(|which| paint(&asked, row, which).number), [7; 3]);
                listed += usize::from(entries.contains(&row));
            }
        }
        if version.has_text_paths() {
            assert!((0..5).all(|kind| colors.contains(&(0, kind))), "{colors:?}");
            assert!([1, 2].iter().all(|form| colors.iter().any(|color| color.0 == *form)), "{colors:?}");
            assert_eq!(alternatives.len(), 2);
            assert!(listed > 5, "{listed}");
        } else {
            assert!(colors.is_empty());
        }
    }
}

#[test]
fn texts_are_there_with_and_without_latex_fields() {
    for version in Version::ALL {
        let mut seen = BTreeSet::new();
        for asked in cases(version) {
            for row in 0..asked.rows {
                let TextAnswer { number, alternative_start, alternative_length, text_length, .. } =
                    ask::text(Some(&asked.good), row);
                if number == 0 {
                    assert!(text_length > 0);
                    seen.insert((alternative_start > 0, alternative_length > 0));
                }
            }
        }
        assert_eq!(
            seen.into_iter().collect::<Vec<_>>(),
            [(false, false), (true, false), (true, true)],
            "{version:?}"
        );
    }
}
