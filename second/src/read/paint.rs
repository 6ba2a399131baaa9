//! Paints (01, 'Paint').

use super::field::{Source, Taken};
use crate::model::{Gradient, Paint, Plain};
use crate::version::Version;

/// Any paint: the char decides, among those that this version has.
pub fn paint(source: &mut Source, version: Version) -> Taken<Paint> {
    match source.letter(version.paint_letters())? {
        b'G' => Ok(Paint::Linear(gradient(source, version, 7)?)),
        b'D' => Ok(Paint::Radial(gradient(source, version, 8)?)),
        letter => Ok(Paint::Plain(components(source, letter)?)),
    }
}

/// A plain paint: 'plain means not G and not D'.
pub fn plain(source: &mut Source, version: Version) -> Taken<Plain> {
    let letter = source.letter(version.plain_letters())?;
    components(source, letter)
}

/// Two plain paints and an integer from 0 to `highest`.
fn gradient(source: &mut Source, version: Version, highest: i32) -> Taken<Gradient> {
    Ok(Gradient {
        first: plain(source, version)?,
        second: plain(source, version)?,
        place: source.integer_within(0, highest)?,
    })
}

/// The components of the plain paint that this char begins.
fn components(source: &mut Source, letter: u8) -> Taken<Plain> {
    match letter {
        b'R' => Ok(Plain::Rgb(source.components()?)),
        b'C' => Ok(Plain::Cmyk(source.components()?)),
        b'Y' => Ok(Plain::Grey(source.components()?)),
        b'S' => {
            let hue = source.hue()?;
            let [saturation, brightness, alpha] = source.components()?;
            Ok(Plain::Hsb([hue, saturation, brightness, alpha]))
        }
        _ => Ok(Plain::Transparent),
    }
}
