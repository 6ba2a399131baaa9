//! Where each field of a drawing stands, in its file and in the bodies of its table.

use crate::layout::{self, Fields, Kind};
use crate::model::{Drawing, Object};
use crate::version::{Version, PATH_LETTERS};

/// A field and its place: a byte offset in the file, or a word's index in the bodies.
#[derive(Clone, Copy, Debug)]
pub struct Field {
    pub place: usize,
    pub kind: Kind,
    pub value: u64,
}

#[derive(Default)]
struct Places {
    fields: Vec<Field>,
    next: usize,
    in_words: bool,
}

impl Fields for Places {
    fn field(&mut self, kind: Kind, value: u64) {
        self.fields.push(Field { place: self.next, kind, value });
        self.next += match self.in_words {
            true => words(kind),
            false => kind.width(),
        };
    }
}

/// The fields before the first outline, and those from its char on.
pub fn at_outline(fields: &[Field]) -> (&[Field], &[Field]) {
    let begins = |field: &Field| field.kind == Kind::Letter { allowed: PATH_LETTERS };
    fields.split_at(fields.iter().position(begins).unwrap_or(fields.len()))
}

/// How many words hold the field.
pub fn words(kind: Kind) -> usize {
    if kind.width() == 8 {
        2
    } else {
        1
    }
}

/// The fields of the file, in file order.
pub fn of_file(drawing: &Drawing) -> Vec<Field> {
    let mut places = Places::default();
    layout::file(&mut places, drawing);
    places.fields
}

/// The fields of the bodies after the minor version number, in their order there.
pub fn of_bodies(drawing: &Drawing) -> Vec<Field> {
    let version = drawing.version;
    let mut places = Places { fields: Vec::new(), next: 1, in_words: true };
    layout::settings(&mut places, version, &drawing.settings);
    bodies_of_objects(&mut places, version, &drawing.outer.objects);
    layout::group_count(&mut places, &drawing.outer);
    layout::ending(&mut places, version, &drawing.outer.description);
    places.fields
}

/// Bodies follow in the order in which objects end.
fn bodies_of_objects(places: &mut Places, version: Version, objects: &[Object]) {
    for object in objects {
        match object {
            Object::Group(group) => {
                bodies_of_objects(places, version, &group.objects);
                layout::group_count(places, group);
                layout::ending(places, version, &group.description);
            }
            leaf => layout::leaf(places, version, leaf),
        }
    }
}
