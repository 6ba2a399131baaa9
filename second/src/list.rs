//! Objects by label (demand 3; 01, 'What each contract owes') and the answer of the list call.

use crate::answer::Answer;
use crate::check::Good;
use crate::model::{Drawing, Group, Object, Path, Text, TextPath};

/// What an object is, as far as the questions need it.
#[derive(Clone, Copy)]
pub enum Part<'a> {
    Group,
    Path(&'a Path),
    Text(&'a Text),
    Bitmap,
    TextPath(&'a TextPath),
}

/// An object of the drawing; its row number is its place in the list of those that open.
pub struct Opened<'a> {
    pub part: Part<'a>,
    pub description: &'a [u16],
}

/// The objects in the order in which they open: a group before its objects, these in their order,
/// each with all that it holds before the next.
pub fn opened(drawing: &Drawing) -> Vec<Opened<'_>> {
    let mut list = Vec::new();
    open_group(&mut list, &drawing.outer);
    list
}

fn open_group<'a>(list: &mut Vec<Opened<'a>>, group: &'a Group) {
    list.push(Opened { part: Part::Group, description: &group.description });
    for object in &group.objects {
        open_object(list, object);
    }
}

fn open_object<'a>(list: &mut Vec<Opened<'a>>, object: &'a Object) {
    let part = match object {
        Object::Group(group) => return open_group(list, group),
        Object::Path(path) => Part::Path(path),
        Object::Text(text) => Part::Text(text),
        Object::Bitmap(_) => Part::Bitmap,
        Object::TextPath(along) => Part::TextPath(along),
    };
    list.push(Opened { part, description: object.description() });
}

/// The row numbers of the objects whose description is the label, in the order in which they open.
pub fn entries(drawing: &Drawing, label: &[u16]) -> Vec<u32> {
    let objects = opened(drawing);
    let rows = (0..).zip(&objects);
    rows.filter(|(_, object)| object.description == label).map(|(row, _)| row).collect()
}

/// For each row the rows of the groups around it, the innermost first; none around row 0.
pub fn groups_around(drawing: &Drawing) -> Vec<Vec<u32>> {
    let mut all = Vec::new();
    surround(&mut all, &drawing.outer, &mut Vec::new());
    all
}

/// Adds this group and all that it holds; `open` are the groups around it, the outer one first.
fn surround(all: &mut Vec<Vec<u32>>, group: &Group, open: &mut Vec<u32>) {
    let row = all.len() as u32;
    all.push(innermost_first(open));
    open.push(row);
    for object in &group.objects {
        match object {
            Object::Group(inner) => surround(all, inner, open),
            _ => all.push(innermost_first(open)),
        }
    }
    open.pop();
}

fn innermost_first(open: &[u32]) -> Vec<u32> {
    open.iter().rev().copied().collect()
}

/// 'Parent numbers are followed from an entry until row 0 is reached, and from row 0 not at all.'
/// The rows so met, the entry itself not among them; only for the contents of a good table.
pub fn parents_followed(contents: &[u32], entry: u32) -> Vec<u32> {
    let mut met = Vec::new();
    let mut row = entry;
    while row != 0 {
        row = contents[row as usize * crate::table::ROW + 1];
        met.push(row);
    }
    met
}

/// The list call: 16 first, then 18 with the entries needed, then 0 with the entries as row count.
pub fn call(good: Option<&Good>, label: &[u16], lent: &mut [u32]) -> Answer {
    let Some(good) = good else {
        return Answer::refused(16, 0);
    };
    let entries = entries(&good.drawing, label);
    let count = entries.len();
    if lent.len() < count {
        return Answer::refused(18, count as u32);
    }
    lent[..count].copy_from_slice(&entries);
    Answer::new(0, 0, count as u32, 0)
}
