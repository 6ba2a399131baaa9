//! The plans and sheets of the example programs (`../examples`), and the lines that these programs have to print. The lines come from
//! the drawing as a tree: what is inside what is never taken from a table's parent numbers, which the programs follow.

use crate::answer::{Answer, BoxAnswer};
use crate::ask;
use crate::check::{self, Good};
use crate::damage::fields::of_file;
use crate::damage::files::is_true_flag;
use crate::extent;
use crate::generate::chars;
use crate::generate::special::plain_bitmap;
use crate::list::{self, Part};
use crate::model::{
    Bitmap, Drawing, Group, Latex, LineStyle, Markers, Object, Outline, Paint, Path, Plain, Point, Segment,
    Settings, Text, TextPath, TextStyle,
};
use crate::version::Version;
use crate::{plans, read, sheet, table, write};

const ONE: u32 = 1.0f32.to_bits();
const HALF: u32 = 0.5f32.to_bits();

/// How the name of a file ends that holds a sheet, and not a plan.
const SHEET: &str = ".sheet";

/// The files by their names: plans, their sheets, and one of each that is cut.
pub fn plans() -> Vec<(String, Vec<u8>)> {
    let hall = write::file(&hall());
    let sheet = |plan: &[u8]| stored("plan.jdr", plan).1.unwrap_or_default();
    let cut = |bytes: &[u8]| bytes[..bytes.len() - 20].to_vec();
    let mut files = vec![("cut.jdr".to_string(), cut(&hall)), (format!("cut{SHEET}"), cut(&sheet(&hall)))];
    let plans = [
        ("aisles", write::file(&aisles())),
        ("bays", write::file(&bays())),
        ("converter", converter(&bays())),
        ("floor", write::file(&floor())),
        ("hall", hall),
        ("places", write::file(&places())),
        ("plan-a", plans::plan_a()),
    ];
    for (name, plan) in plans {
        files.push((format!("{name}{SHEET}"), sheet(&plan)));
        files.push((format!("{name}.jdr"), plan));
    }
    files
}

/// The drawing as a converter writes it that has 255 for true.
fn converter(drawing: &Drawing) -> Vec<u8> {
    let mut file = write::file(drawing);
    for flag in of_file(drawing).iter().filter(|field| is_true_flag(field)) {
        file[flag.place] = 255;
    }
    file
}

/// One label three times, at two depths.
fn hall() -> Drawing {
    let [.., version, _] = Version::ALL;
    let machines = vec![
        bitmap("lathe.png", "machine"),
        path(Plain::Rgb([0, 0, 0, ONE]), Plain::Grey([HALF, ONE]), "machine"),
    ];
    let cell = group("cell", vec![Object::Text(text("Press", "machine"))]);
    let objects = vec![group("line 1", machines), group("line 2", vec![cell]), bitmap("door.png", "door")];
    let outer = Group { objects, description: chars("hall") };
    Drawing { version, settings: Settings::None, outer }
}

/// A label that the outer group has, a group in it and what that holds; labels that begin alike; chars that are not ASCII, and two for one
/// code point; a group without a label; a bay with nothing in it yet; an object whose parent is not the group that ended last; and a text
/// whose alternative is shown.
fn bays() -> Drawing {
    let [_, _, version, ..] = Version::ALL;
    let mill = "Fräse 🔧";
    let inner = group("bay", vec![Object::Text(text("Bay", "bay")), bitmap("mill.png", mill)]);
    let red = Plain::Rgb([ONE, 0, 0, ONE]);
    let aisle = group("bay 1", vec![path(red, Plain::Transparent, "bay")]);
    let mill = Object::Text(with_alternative(text("Mill", mill), "\\emph{Mill} 🔧"));
    let unnamed = group("", vec![aisle, group("bay", vec![]), mill]);
    let outer = Group { objects: vec![inner, unnamed], description: chars("bay") };
    Drawing { version, settings: Settings::None, outer }
}

/// Boxes: of a curve whose control points lie furthest out; of a path that begins at -0 and goes to infinity; none of a path with a NaN; and
/// of a text along a path with a NaN in its transformation, which is no coordinate.
fn places() -> Drawing {
    let [.., version] = Version::ALL;
    let curve = Segment::Bezier([point(12.5, -3.25), point(90.75, 4.0), point(20.0, 8.5)]);
    let far = [point(0.0, f64::NEG_INFINITY), point(f64::INFINITY, 1.0)].map(Segment::Line);
    let lost = [point(5.0, 5.0), point(6.0, f64::NAN)].map(Segment::Move);
    let open_path = |start, segments: &[Segment], label| {
        let outline = Outline { closed: false, start, segments: segments.to_vec() };
        outlined(outline, Plain::Rgb([ONE, 0, 0, ONE]), Plain::Transparent, label)
    };
    let mut turned = text("Robot", "machine");
    turned.style.transformation[0] = f64::NAN.to_bits();
    let objects = vec![
        open_path(point(10.0, 2.0), &[curve], "machine"),
        open_path(point(-0.0, 0.0), &far, "bay"),
        open_path(point(4.0, 4.0), &lost, "press"),
        along(turned),
    ];
    let outer = Group { objects: vec![group("bay", objects)], description: chars("places") };
    Drawing { version, settings: Settings::None, outer }
}

/// Texts along paths: one with a label that a text has too, and one whose alternative is shown.
fn aisles() -> Drawing {
    let [.., version] = Version::ALL;
    let lines = vec![Object::Text(text("Line 2", "line 2")), along(text("Aisle 2", "line 2"))];
    let machine = along(with_alternative(text("Robot", "machine"), "\\textbf{Robot}"));
    let outer = Group { objects: vec![group("hall", lines), machine], description: chars("aisles") };
    Drawing { version, settings: Settings::None, outer }
}

/// A floor to be drawn and counted: bays of tools, each tool an outline with its own label and its name beside it, in a colour of every kind; a tool with
/// round ends; a bay with nothing in it yet; a text along the aisle; and what is no tool, the walls and a door.
fn floor() -> Drawing {
    let [.., version] = Version::ALL;
    let yellow = || Plain::Rgb([1.0f32, 0.8, 0.4, 1.0].map(f32::to_bits));
    let green = Plain::Cmyk([0.4f32, 0.0, 0.2, 0.1, 1.0].map(f32::to_bits));
    let grey = Plain::Grey([0.8f32, 1.0].map(f32::to_bits));
    let blue = Plain::Hsb([220.0f32, 0.3, 1.0, 0.8].map(f32::to_bits));
    let tool = |name: &str, left: f64, top: f64, fill: Plain| {
        let outline = block(left, top, 60.0, 30.0);
        [outlined(outline, BLACK, fill, name), written(name, left + 4.0, top + 18.0)]
    };
    let etchers = [tool("etcher 1", 15.0, 15.0, yellow()), tool("etcher 2", 95.0, 15.0, yellow())];
    let bay_1 = [&etchers[..], &[tool("stepper 1", 175.0, 15.0, green)]].concat();
    let furnace = outlined(rounded(15.0, 115.0), BLACK, blue, "furnace 1");
    let bay_2 = [[furnace, written("furnace 1", 19.0, 133.0)], tool("wet bench 1", 95.0, 115.0, grey)];
    let aisle = Outline {
        closed: false,
        start: point(15.0, 85.0),
        segments: vec![Segment::Bezier([point(80.0, 60.0), point(170.0, 110.0), point(235.0, 85.0)])],
    };
    let mut along = text("Aisle A", "");
    along.paint = Paint::Plain(BLACK);
    let mut door = Bitmap { name: chars("door.png"), description: chars("door"), ..plain_bitmap(1) };
    door.transformation = [1.0f64, 0.0, 0.0, 1.0, 205.0, 155.0].map(f64::to_bits);
    let objects = vec![
        outlined(block(0.0, 0.0, 250.0, 160.0), BLACK, Plain::Transparent, ""),
        group("bay 1", bay_1.concat()),
        Object::TextPath(TextPath { text: along, outline: aisle }),
        group("bay 2", bay_2.concat()),
        group("bay 3", vec![]),
        Object::Bitmap(door),
    ];
    let outer = Group { objects, description: chars("floor") };
    Drawing { version, settings: Settings::None, outer }
}

const BLACK: Plain = Plain::Rgb([0, 0, 0, ONE]);

/// A text that names what it stands on, without a label of its own.
fn written(name: &str, x: f64, y: f64) -> Object {
    let mut text = text(name, "");
    text.style.transformation = [1.0f64, 0.0, 0.0, 1.0, x, y].map(f64::to_bits);
    text.paint = Paint::Plain(BLACK);
    Object::Text(text)
}

/// As wide and high as a tool, with round ends.
fn rounded(left: f64, top: f64) -> Outline {
    let at = |x: f64, y: f64| point(left + x, top + y);
    let segments = vec![
        Segment::Line(at(45.0, 0.0)),
        Segment::Bezier([at(65.0, 0.0), at(65.0, 30.0), at(45.0, 30.0)]),
        Segment::Line(at(15.0, 30.0)),
        Segment::Bezier([at(-5.0, 30.0), at(-5.0, 0.0), at(15.0, 0.0)]),
    ];
    Outline { closed: true, start: at(15.0, 0.0), segments }
}

fn group(description: &str, objects: Vec<Object>) -> Object {
    Object::Group(Group { objects, description: chars(description) })
}

fn bitmap(name: &str, description: &str) -> Object {
    Object::Bitmap(Bitmap { name: chars(name), description: chars(description), ..plain_bitmap(1) })
}

fn text(shown: &str, description: &str) -> Text {
    Text {
        style: TextStyle {
            family: chars("Serif"),
            shape: 0,
            series: 0,
            size: 10,
            transformation: [1.0f64, 0.0, 0.0, 1.0, 5.0, 5.0].map(f64::to_bits),
            latex: None,
        },
        paint: Paint::Plain(Plain::Transparent),
        text: chars(shown),
        description: chars(description),
    }
}

/// A text with LaTeX fields, of which the alternative is shown.
fn with_alternative(text: Text, alternative: &str) -> Text {
    let latex = Latex {
        family: chars("\\rmfamily"),
        series: vec![],
        shape: chars("\\itshape"),
        size: vec![],
        horizontal: 1,
        vertical: 2,
        alternative: chars(alternative),
    };
    Text { style: TextStyle { latex: Some(latex), ..text.style }, ..text }
}

/// The text along a rectangle.
fn along(text: Text) -> Object {
    Object::TextPath(TextPath { text, outline: rectangle() })
}

fn point(x: f64, y: f64) -> Point {
    Point { x: x.to_bits(), y: y.to_bits() }
}

/// Three sides of a rectangle, which the path closes.
fn rectangle() -> Outline {
    block(0.0, 0.0, 40.0, 20.0)
}

/// The same somewhere.
fn block(x: f64, y: f64, width: f64, height: f64) -> Outline {
    let corners = [point(x + width, y), point(x + width, y + height), point(x, y + height)];
    Outline { closed: true, start: point(x, y), segments: corners.into_iter().map(Segment::Line).collect() }
}

fn path(line: Plain, fill: Plain, description: &str) -> Object {
    outlined(rectangle(), line, fill, description)
}

/// A path that runs there; from 1.1, since it has markers of that sort.
fn outlined(outline: Outline, line: Plain, fill: Plain, description: &str) -> Object {
    Object::Path(Path {
        line: Paint::Plain(line),
        fill: Paint::Plain(fill),
        style: LineStyle {
            width: ONE,
            dashes: None,
            cap: 0,
            join: 1,
            mitre_limit: None,
            winding: 0,
            markers: Markers::Chains { start: vec![], mid: vec![], end: vec![] },
        },
        outline,
        description: chars(description),
    })
}

/// A file that was read: the line for it, and its table if it was accepted.
fn taken(name: &str, file: &[u8]) -> (String, Option<Good>) {
    let (call, taken) = if name.ends_with(SHEET) {
        ("sheet_read", sheet::good(file).ok_or(Answer::refused(19, 0)))
    } else {
        ("read", of_plan(file))
    };
    let length = file.len() as u32;
    let accepted = |good: &Good| Answer::new(0, length, good.table.rows(), good.table.words());
    let answer = taken.as_ref().map_or_else(|refusal| *refusal, accepted);
    (line(call, answer), taken.ok())
}

fn of_plan(file: &[u8]) -> Result<Good, Answer> {
    let refused = |refusal: read::Refusal| Answer::refused(refusal.number, refusal.offset);
    let table = table::of(&read::drawing(file).map_err(refused)?);
    check::good(&table.contents, &table.bodies).ok_or(Answer::refused(16, 0))
}

/// What a program prints for a plan or a sheet of this name, with a label or without; and whether it ends well.
pub fn lines(name: &str, file: &[u8], label: Option<&str>) -> (String, bool) {
    let (read, good) = taken(name, file);
    let Some(good) = good else {
        return (read, false);
    };
    let Some(label) = label else {
        let (back, same) = comes_back(name, file, &good);
        return (read + &back, same);
    };
    let label = chars(label);
    let mut entries = vec![0; good.table.rows() as usize];
    let listed = list::call(Some(&good), &label, &mut entries);
    let rows = list::entries(&good.drawing, &label).into_iter().map(|row| row_line(&good.drawing, row));
    (read + &line("list", listed) + &rows.collect::<String>(), listed.number == 0)
}

/// The check, and the table written back as what it came from, which may have been a plan with other bytes for true than 1.
fn comes_back(name: &str, file: &[u8], good: &Good) -> (String, bool) {
    let mut copy = vec![0; file.len()];
    let (call, written) = if name.ends_with(SHEET) {
        ("sheet_write", sheet::write_call(Some(good), &mut copy))
    } else {
        ("write", write::call(Some(good), &mut copy))
    };
    let last = match copy == file {
        true => "the same file\n",
        false => "the file with each true flag made 1\n",
    };
    (line("check", check::call(Some(good))) + &line(call, written) + last, written.number == 0)
}

/// What a program prints that stores the sheet of a plan of this name, and the sheet if there is one.
pub fn stored(name: &str, file: &[u8]) -> (String, Option<Vec<u8>>) {
    let (read, good) = taken(name, file);
    let Some(good) = good else {
        return (read, None);
    };
    let needed = sheet::write_call(Some(&good), &mut []).offset;
    let mut sheet = vec![0; needed as usize];
    let written = sheet::write_call(Some(&good), &mut sheet);
    (read + &line("sheet_write", written), Some(sheet))
}

fn line(call: &str, answer: Answer) -> String {
    let Answer { number, offset, rows, words } = answer;
    format!("{call}: {number} {offset} {rows} {words}\n")
}

/// The text to show of a text.
fn shows(text: &Text) -> String {
    let alternative = text.style.latex.as_ref().map_or(&[][..], |latex| &latex.alternative);
    let shown = ask::shown(alternative, &text.text);
    format!(" shows {}", String::from_utf16_lossy(shown))
}

/// The box around a path, or that it has none; nothing of an object without a path.
fn box_of(drawing: &Drawing, part: &Part) -> String {
    match extent::outline_of(part).map(|outline| extent::around(drawing.version, outline)) {
        None => String::new(),
        Some(Err(_)) => " box not a number".to_string(),
        Some(Ok(BoxAnswer { left, bottom, right, top, .. })) => {
            format!(" box {left:.2} {bottom:.2} {right:.2} {top:.2}")
        }
    }
}

/// An object with its kind and the groups around it, the innermost first, the box around a path, and the text to show of a text.
fn row_line(drawing: &Drawing, row: u32) -> String {
    let part = list::opened(drawing)[row as usize].part;
    let (kind, text) = match part {
        Part::Group => ("group", None),
        Part::Path(_) => ("path", None),
        Part::Text(text) => ("text", Some(text)),
        Part::Bitmap => ("bitmap", None),
        Part::TextPath(along) => ("textpath", Some(&along.text)),
    };
    let extent = box_of(drawing, &part);
    let shows = text.map_or(String::new(), shows);
    let around = &list::groups_around(drawing)[row as usize];
    let around: Vec<String> = around.iter().map(u32::to_string).collect();
    let inside = if around.is_empty() { "no group".to_string() } else { around.join(" ") };
    format!("row {row} {kind} inside {inside}{extent}{shows}\n")
}
