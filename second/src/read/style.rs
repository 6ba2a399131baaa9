//! Line styles and markers (01, 'Line style').

use super::field::{refusal, Source, Taken};
use super::paint;
use crate::model::{Arrow, Chain, Dashes, LineStyle, Marker, Markers};
use crate::version::{Version, LONGEST_CHAIN};

pub fn line_style(source: &mut Source, version: Version) -> Taken<LineStyle> {
    let width = source.float()?;
    let dashes = dashes(source)?;
    let cap = source.byte(0, 2)?;
    let join = source.byte(0, 2)?;
    let mitre_limit = if join == 0 { Some(source.float()?) } else { None };
    let winding = source.byte(0, 1)?;
    let markers = markers(source, version)?;
    Ok(LineStyle { width, dashes, cap, join, mitre_limit, winding, markers })
}

/// Dash count, 'and if it is not 0 that many lengths and an offset'.
fn dashes(source: &mut Source) -> Taken<Option<Dashes>> {
    let count = source.dash_count()?;
    if count == 0 {
        return Ok(None);
    }
    let mut lengths = Vec::new();
    for _ in 0..count {
        lengths.push(source.float()?);
    }
    Ok(Some(Dashes { lengths, offset: source.float()? }))
}

/// Start and end in 1.0; start, mid, end from 1.1.
fn markers(source: &mut Source, version: Version) -> Taken<Markers> {
    if version.has_chains() {
        Ok(Markers::Chains {
            start: chain(source, version)?,
            mid: chain(source, version)?,
            end: chain(source, version)?,
        })
    } else {
        Ok(Markers::Arrows { start: arrow(source, version)?, end: arrow(source, version)? })
    }
}

/// A marker in 1.0: byte; if not 0, size, flag double, flag reversed.
fn arrow(source: &mut Source, version: Version) -> Taken<Option<Arrow>> {
    let id = source.byte(0, version.highest_marker())?;
    if id == 0 {
        return Ok(None);
    }
    Ok(Some(Arrow { id, size: source.float()?, double: source.flag()?, reversed: source.flag()? }))
}

/// From 1.1 a marker ends with another one, the composite; id 0 closes the chain.
/// A fifth id that is in its list and not 0 is 10; outside its list it is 6 first.
fn chain(source: &mut Source, version: Version) -> Taken<Chain> {
    let mut chain = Chain::new();
    loop {
        let offset = source.at();
        let id = source.byte(0, version.highest_marker())?;
        if id == 0 {
            return Ok(chain);
        }
        if chain.len() == LONGEST_CHAIN {
            return Err(refusal(10, offset));
        }
        chain.push(marker(source, version, id)?);
    }
}

/// What follows an id that is not 0, up to the composite marker.
fn marker(source: &mut Source, version: Version, id: u8) -> Taken<Marker> {
    let size = source.float()?;
    let repeat = source.byte(1, 3)?;
    let reversed = source.flag()?;
    let auto_orient = source.flag()?;
    let angle = if auto_orient { None } else { Some(source.float()?) };
    let paint = paint::plain(source, version)?;
    let overlay = source.flag()?;
    // The offsets are there where overlay is 0 (01 and 000's text; 000's code has it reversed).
    let (user_offset, repeat_offset) = if version.has_marker_offsets() && !overlay {
        (offset(source)?, offset(source)?)
    } else {
        (None, None)
    };
    Ok(Marker { id, size, repeat, reversed, angle, paint, overlay, user_offset, repeat_offset })
}

/// 'A flag with an offset if 1.'
fn offset(source: &mut Source) -> Taken<Option<u32>> {
    if source.flag()? {
        Ok(Some(source.float()?))
    } else {
        Ok(None)
    }
}
