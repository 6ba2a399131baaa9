//! The plans and sheets of the example programs, and lines for them that are put down by hand.

use second::examples::{lines, plans, stored};

fn file(wanted: &str) -> Vec<u8> {
    plans().into_iter().find(|(name, _)| name == wanted).map(|(_, file)| file).expect(wanted)
}

fn said(plan: &str, label: Option<&str>) -> (String, bool) {
    lines(plan, &file(plan), label)
}

/// The rows that are listed, and nothing of the answers above them.
fn rows(plan: &str, label: &str) -> Vec<String> {
    let (lines, well) = said(plan, Some(label));
    assert!(well);
    lines.lines().skip(2).map(str::to_string).collect()
}

#[test]
fn labels_at_several_depths() {
    let machines = [
        "row 2 bitmap inside 1 0",
        "row 3 path inside 1 0 box 0.00 0.00 40.00 20.00",
        "row 6 text inside 5 4 0 shows Press",
    ];
    assert_eq!(rows("hall.jdr", "machine"), machines);
    let bays = [
        "row 0 group inside no group",
        "row 1 group inside 0",
        "row 2 text inside 1 0 shows Bay",
        "row 6 path inside 5 4 0 box 0.00 0.00 40.00 20.00",
        "row 7 group inside 4 0",
    ];
    assert_eq!(rows("bays.jdr", "bay"), bays);
}

#[test]
fn texts_along_paths() {
    let lines = [
        "row 2 text inside 1 0 shows Line 2",
        "row 3 textpath inside 1 0 box 0.00 0.00 40.00 20.00 shows Aisle 2",
    ];
    assert_eq!(rows("aisles.jdr", "line 2"), lines);
    let machine = ["row 4 textpath inside 0 box 0.00 0.00 40.00 20.00 shows \\textbf{Robot}"];
    assert_eq!(rows("aisles.jdr", "machine"), machine);
}

#[test]
fn boxes_of_paths() {
    let machines = [
        "row 2 path inside 1 0 box 10.00 -3.25 90.75 8.50",
        "row 5 textpath inside 1 0 box 0.00 0.00 40.00 20.00 shows Robot",
    ];
    assert_eq!(rows("places.jdr", "machine"), machines);
    let bay = ["row 1 group inside 0", "row 3 path inside 1 0 box -0.00 -inf inf 1.00"];
    assert_eq!(rows("places.jdr", "bay"), bay);
    assert_eq!(rows("places.jdr", "press"), ["row 4 path inside 1 0 box not a number"]);
}

#[test]
fn a_parent_is_not_the_group_that_ended_last() {
    assert_eq!(
        rows("bays.jdr", "Fräse 🔧"),
        ["row 3 bitmap inside 1 0", "row 8 text inside 4 0 shows \\emph{Mill} 🔧"]
    );
    assert_eq!(rows("hall.jdr", "door"), ["row 7 bitmap inside 0"]);
}

#[test]
fn labels_that_are_not_there_or_empty() {
    assert_eq!(said("hall.jdr", Some("press")), ("read: 0 522 8 178\nlist: 0 0 0 0\n".to_string(), true));
    assert!(rows("hall.jdr", "").is_empty());
    assert_eq!(rows("bays.jdr", ""), ["row 4 group inside 0"]);
    assert_eq!(rows("plan-a.jdr", ""), ["row 0 group inside no group", "row 1 bitmap inside 0"]);
}

#[test]
fn without_a_label_the_file_comes_back() {
    let whole = "read: 0 82 2 20\ncheck: 0 82 2 20\nwrite: 0 82 2 20\nthe same file\n";
    assert_eq!(said("plan-a.jdr", None), (whole.to_string(), true));
    assert_eq!(said("cut.jdr", None), ("read: 2 501 0 0\n".to_string(), false));
}

#[test]
fn a_sheet_lists_what_its_plan_lists() {
    for plan in ["aisles", "bays", "hall", "places", "plan-a"] {
        for label in ["machine", "bay", "line 2", "press", "Fräse 🔧", "door", ""] {
            let [of_plan, of_sheet] = ["jdr", "sheet"].map(|form| rows(&format!("{plan}.{form}"), label));
            assert_eq!(of_plan, of_sheet, "{plan} {label}");
        }
    }
    assert_eq!(rows("hall.sheet", "machine").len(), 3);
}

#[test]
fn sheets_are_stored_and_come_back() {
    let hall = 4 + 8 * 8 + 178 * 4;
    let (lines, sheet) = stored("hall.jdr", &file("hall.jdr"));
    assert_eq!(lines, format!("read: 0 522 8 178\nsheet_write: 0 {hall} 8 178\n"));
    assert_eq!(sheet, Some(file("hall.sheet")));
    let back = format!(
        "sheet_read: 0 {hall} 8 178\ncheck: 0 522 8 178\nsheet_write: 0 {hall} 8 178\nthe same file\n"
    );
    assert_eq!(said("hall.sheet", None), (back, true));
    let listed = format!("sheet_read: 0 {hall} 8 178\nlist: 0 0 0 0\n");
    assert_eq!(said("hall.sheet", Some("press")), (listed, true));
}

#[test]
fn what_is_refused_is_not_stored() {
    assert_eq!(stored("cut.jdr", &file("cut.jdr")), ("read: 2 501 0 0\n".to_string(), None));
    assert_eq!(stored("cut.sheet", &file("cut.sheet")), ("sheet_read: 19 0 0 0\n".to_string(), None));
    for label in [None, Some("machine")] {
        assert_eq!(said("cut.sheet", label), ("sheet_read: 19 0 0 0\n".to_string(), false));
    }
}

#[test]
fn a_converters_plan_comes_back_with_its_true_flags_made_1() {
    let (lines, well) = said("converter.jdr", None);
    assert!(well && lines.ends_with("\nthe file with each true flag made 1\n"), "{lines}");
    assert_eq!(file("converter.sheet"), file("bays.sheet"));
    assert_eq!(rows("converter.jdr", "bay"), rows("bays.jdr", "bay"));
}
