//! The cases of each call: what they hold, and that a seed always gives the same.

use second::make::{first_numbers, lists, reads, sessions, sheets, tables, Case, CALLS};
use second::sheet;
use std::collections::BTreeSet;

fn bytes(cases: &[Case]) -> usize {
    cases.iter().map(|case| case.data.len()).sum()
}

/// The first number of a case's line.
fn number(case: &Case) -> &str {
    case.groups[0].split(' ').next().unwrap_or("")
}

#[test]
fn every_number_of_the_reader_occurs_at_several_places_and_5_nowhere() {
    for seed in [1, 2, 77] {
        let cases = reads::cases(seed);
        let numbers = first_numbers(&cases);
        assert!(numbers.keys().copied().eq((0..=13).filter(|number| *number != 5)), "{numbers:?}");
        assert!(numbers.values().all(|count| *count >= 3), "{numbers:?}");
        assert!(cases.len() <= 1_300 && bytes(&cases) < 4_000_000);
    }
}

#[test]
fn the_longest_file_is_accepted_and_one_byte_more_is_not() {
    let cases = reads::cases(1);
    for (length, first) in [(65_535, "0"), (65_536, "1")] {
        assert!(cases.iter().any(|case| case.data.len() == length && number(case) == first));
    }
}

#[test]
fn a_case_that_names_its_number_has_it() {
    for case in reads::cases(1) {
        let mut parts = case.name.split(": ");
        let named = parts.find(|part| part.parse::<u32>().is_ok());
        if let Some(named) = named {
            assert_eq!(named, number(&case), "{}", case.name);
        }
    }
}

#[test]
fn accepted_files_have_four_groups_and_refused_ones_one() {
    for case in reads::cases(1) {
        let firsts: Vec<&str> = case.groups.iter().filter_map(|group| group.split(' ').next()).collect();
        if firsts[0] == "0" {
            assert_eq!(firsts, ["0", "0", "14", "15"]);
        } else {
            assert_eq!(firsts.len(), 1);
        }
    }
}

#[test]
fn tables_and_lists_hold_good_and_bad_ones() {
    for cases in [tables::cases(1), lists::cases(1)] {
        let numbers = first_numbers(&cases);
        assert!(numbers.keys().copied().eq([0, 16]), "{numbers:?}");
        assert!(numbers.values().all(|count| *count >= 20), "{numbers:?}");
        assert!(cases.len() <= 300 && bytes(&cases) < 1_500_000);
    }
}

/// The first number of each group.
fn numbers(case: &Case) -> Vec<&str> {
    case.groups.iter().filter_map(|group| group.split(' ').next()).collect()
}

#[test]
fn sheets_hold_good_and_bad_ones_in_all_rooms() {
    let accepted_and_refused = [
        (sheets::write_cases(1), ["0", "0", "17"].as_slice(), ["16"]),
        (sheets::read_cases(1), ["0", "0", "14", "15"].as_slice(), ["19"]),
    ];
    for (cases, accepted, refused) in accepted_and_refused {
        let good = cases.iter().filter(|case| numbers(case) == accepted).count();
        let bad = cases.iter().filter(|case| numbers(case) == refused).count();
        assert!(good >= 20 && bad >= 60, "{good} {bad}");
        assert_eq!(good + bad, cases.len());
        assert!(cases.len() <= 350 && bytes(&cases) < 1_000_000);
    }
}

/// The room that a data file is read into has 416,000 bytes.
#[test]
fn long_sheets_are_among_the_cases() {
    let cases = sheets::read_cases(1);
    for first in ["0", "19"] {
        assert!(cases.iter().any(|case| case.data.len() > 65_535 && number(case) == first));
    }
    let all = cases.iter().chain(sheets::write_cases(1).iter()).all(|case| case.data.len() <= 416_000);
    assert!(all);
}

#[test]
fn the_sheets_that_are_read_are_of_all_versions_and_kinds() {
    let cases = sheets::read_cases(1);
    let good: Vec<_> = cases.iter().filter_map(|case| sheet::good(&case.data)).collect();
    let versions: BTreeSet<u8> = good.iter().map(|good| good.drawing.version.minor()).collect();
    assert!(versions.into_iter().eq(0..=5));
    let kinds: BTreeSet<u32> =
        good.iter().flat_map(|good| good.table.contents.iter().step_by(4).copied()).collect();
    assert!(kinds.into_iter().eq(1..=5));
}

#[test]
fn sessions_hold_every_verdict_and_made_up_ones() {
    for seed in [1, 2, 77] {
        let cases = sessions::cases(seed);
        let numbers = first_numbers(&cases);
        for number in (0..=13).filter(|number| *number != 5) {
            assert!(numbers.contains_key(&number), "{number}: {numbers:?}");
        }
        assert!(numbers.keys().all(|number| *number <= 13 && *number != 5));
        for made_up in ["22", "-"] {
            assert!(
                cases.iter().filter(|case| case.groups.last().unwrap().starts_with(made_up)).count() >= 20
            );
        }
        assert!(cases.len() <= 350 && bytes(&cases) < 2_000_000);
    }
}

/// A verdict is repeated whatever comes behind it; the one in the middle is often another.
#[test]
fn a_session_repeats_its_verdict() {
    let cases = sessions::cases(1);
    let verdict = |group: &str| group.split(' ').take(4).map(str::to_string).collect::<Vec<_>>();
    let mut others = 0;
    for case in &cases {
        let verdicts: Vec<_> = case.groups.iter().map(|group| verdict(group)).collect();
        assert_eq!(verdicts.len(), 6);
        assert_eq!((&verdicts[0], &verdicts[2]), (&verdicts[1], &verdicts[3]), "{}", case.name);
        others += usize::from(verdicts[0] != verdicts[2]);
    }
    assert!(others >= 100, "{others}");
}

#[test]
fn a_seed_gives_the_same_cases_again() {
    for (_, make) in CALLS {
        let (one, two) = (make(9), make(9));
        assert_eq!(one.len(), two.len());
        for (one, two) in one.iter().zip(&two) {
            assert!(one.data == two.data && one.groups == two.groups && one.name == two.name);
        }
    }
}

#[test]
fn a_case_is_a_line_of_the_list() {
    for (call, make) in CALLS {
        assert!(!call.contains([' ', '/', '\n']), "{call}");
        assert!(make(1).iter().all(|case| !case.name.contains('\n')), "{call}");
    }
}
