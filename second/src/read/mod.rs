//! From the bytes of a file to the drawing, or to the refusal (01, 'Fields' and 'Numbers given back'; 02, R-1 and R-2).
//!
//! The fields are read in file order and each is judged at once, so the first fault decides.

pub mod field;
mod object;
mod paint;
mod style;

use crate::model::{AllSettings, Drawing, OwnPaper, Paper, Settings};
use crate::version::{Version, LONGEST_FILE, OUTER_LETTERS, OWN_PAPER};
use field::{refusal, Source, Taken};

pub use field::Refusal;

/// The drawing that these bytes encode, or why they are refused (1 to 13).
pub fn drawing(file: &[u8]) -> Result<Drawing, Refusal> {
    // 1 is judged by length alone, before any byte.
    if file.len() > LONGEST_FILE {
        return Err(refusal(1, LONGEST_FILE));
    }
    let mut source = Source::new(file);
    signature(&mut source)?;
    let version = version(&mut source)?;
    let settings = settings(&mut source, version)?;
    source.letter(OUTER_LETTERS)?;
    let outer = object::group(&mut source, version, 1)?;
    if source.has_more() {
        return Err(refusal(13, source.at()));
    }
    Ok(Drawing { version, settings, outer })
}

/// The chars `JDR`, one field of 6 bytes: otherwise 3.
fn signature(source: &mut Source) -> Taken<()> {
    let offset = source.at();
    if source.three_chars()? != [b'J', b'D', b'R'].map(u16::from) {
        return Err(refusal(3, offset));
    }
    Ok(())
}

/// An integer 3, then the version's three chars, one field: otherwise 4, also for a negative length.
fn version(source: &mut Source) -> Taken<Version> {
    let offset = source.at();
    if source.integer()? != 3 {
        return Err(refusal(4, offset));
    }
    let offset = source.at();
    let chars = source.three_chars()?;
    Version::from_chars(chars).ok_or(refusal(4, offset))
}

/// Below 1.3 a flag; from 1.3 a byte 0 none, 1 all, 2 paper only.
fn settings(source: &mut Source, version: Version) -> Taken<Settings> {
    let id = if version.has_settings_byte() { source.byte(0, 2)? } else { u8::from(source.flag()?) };
    match id {
        0 => Ok(Settings::None),
        1 => Ok(Settings::All(all_settings(source, version)?)),
        _ => Ok(Settings::PaperOnly(paper(source, version)?)),
    }
}

fn all_settings(source: &mut Source, version: Version) -> Taken<AllSettings> {
    Ok(AllSettings {
        grid: source.flag()?,
        lock: source.flag()?,
        rulers: source.flag()?,
        tool: source.integer_within(0, 7)?,
        normal_size: source.integer()?,
        paper: paper(source, version)?,
        unit: source.byte(0, 3)?,
        major: source.integer()?,
        minor: source.integer()?,
    })
}

/// A byte; after 18 come doubles width and height, and below 1.3 a flag.
fn paper(source: &mut Source, version: Version) -> Taken<Paper> {
    let id = source.byte(0, version.highest_paper())?;
    if id != OWN_PAPER {
        return Ok(Paper { id, own: None });
    }
    let width = source.double()?;
    let height = source.double()?;
    let portrait = if version.has_portrait_flag() { Some(source.flag()?) } else { None };
    Ok(Paper { id, own: Some(OwnPaper { width, height, portrait }) })
}
