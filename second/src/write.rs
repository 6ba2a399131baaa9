//! The bytes of a drawing (01, 'Fields') and the answer of the write call.

use crate::answer::Answer;
use crate::check::Good;
use crate::layout::{self, Fields, Kind};
use crate::model::{Drawing, Object};
use crate::version::Version;

/// The fields' bytes, big-endian.
struct Bytes(Vec<u8>);

impl Fields for Bytes {
    fn field(&mut self, kind: Kind, value: u64) {
        let bytes = value.to_be_bytes();
        self.0.extend_from_slice(&bytes[8 - kind.width()..]);
    }
}

/// The file that encodes this drawing.
pub fn file(drawing: &Drawing) -> Vec<u8> {
    let mut bytes = Bytes(Vec::new());
    layout::file(&mut bytes, drawing);
    bytes.0
}

/// How many bytes the fields have.
struct Length(usize);

impl Fields for Length {
    fn field(&mut self, kind: Kind, _value: u64) {
        self.0 += kind.width();
    }
}

/// The length of the file that encodes this drawing.
pub fn length(drawing: &Drawing) -> usize {
    let mut length = Length(0);
    layout::file(&mut length, drawing);
    length.0
}

/// How many bytes of the file an object takes, its id char and its own objects included.
pub fn object_length(version: Version, object: &Object) -> usize {
    let mut length = Length(0);
    layout::object(&mut length, version, object, 1);
    length.0
}

/// The write call: 16 first, then 17 with the bytes needed, then 0 with the bytes written.
pub fn call(good: Option<&Good>, output: &mut [u8]) -> Answer {
    let Some(good) = good else {
        return Answer::refused(16, 0);
    };
    let length = good.file.len();
    if output.len() < length {
        return Answer::refused(17, length as u32);
    }
    output[..length].copy_from_slice(&good.file);
    Answer::new(0, length as u32, good.table.rows(), good.table.words())
}
