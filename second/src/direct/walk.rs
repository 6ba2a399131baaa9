//! The layout (01, 'Fields'; 02, R-1 and R-2), said once for walks over a file and over a table.

use crate::version::{Version, DEEPEST_GROUP, LONGEST_CHAIN, OWN_PAPER};

/// What has been opened: a row with its kind, and where its body begins.
pub struct Opened {
    pub row: usize,
    pub kind: u32,
    pub start: usize,
}

pub const GROUP: u32 = 1;
pub const PATH: u32 = 2;
pub const TEXT: u32 = 3;
pub const BITMAP: u32 = 4;
/// From 1.5.
pub const TEXT_PATH: u32 = 5;

/// The minor number of the last version.
pub const LAST_MINOR: u8 = Version::ALL.len() as u8 - 1;

/// A walk over the fields of a drawing, which come from a file or from a table and go into the other.
pub trait Walk {
    /// Why a walk ends early.
    type Stop;

    /// A field of 1, 2 or 4 bytes, which is a word of the table. `fault` gives the number of what is wrong with its bits, or 0.
    fn field<const WIDTH: usize>(&mut self, fault: impl FnOnce(u32) -> u32) -> Result<u32, Self::Stop>;

    /// A flag, which may have this fault where it is true.
    fn flag(&mut self, of_true: u32) -> Result<bool, Self::Stop>;

    /// A double.
    fn double(&mut self, fault: impl FnOnce(u64) -> u32) -> Result<u64, Self::Stop>;

    /// A run of so many fields of this width, all of them free.
    fn run<const WIDTH: usize>(&mut self, count: usize) -> Result<(), Self::Stop>;

    /// The id char of an object; a group here would have this depth.
    fn open(&mut self, minor: u32, parent: usize, depth: u32) -> Result<Opened, Self::Stop>;

    /// A group's n, which may be 0. Its word stands behind the bodies of the members.
    fn members(&mut self, opened: &Opened) -> Result<u32, Self::Stop>;

    /// The members are done and the group's own body begins.
    fn members_done(&mut self, opened: &mut Opened, n: u32) -> Result<(), Self::Stop>;

    /// An object's description is the last so many chars passed; it is empty below 1.2.
    #[inline(always)]
    fn described(&mut self, _length: usize) {}

    /// The points of an outline begin here; it has so many segments.
    #[inline(always)]
    fn outlined(&mut self, _segments: u32) {}

    /// The body is done.
    fn close(&mut self, opened: Opened, parent: usize) -> Result<(), Self::Stop>;
}

fn unless(good: bool, number: u32) -> u32 {
    if good {
        0
    } else {
        number
    }
}

fn flag<W: Walk>(walk: &mut W) -> Result<bool, W::Stop> {
    walk.flag(0)
}

/// A byte from `low` to `high`, neither of them negative.
fn byte<W: Walk>(walk: &mut W, low: u32, high: u32) -> Result<u32, W::Stop> {
    walk.field::<1>(|bits| unless(low <= bits && bits <= high, 6))
}

/// An integer from 0 to `high`.
fn integer<W: Walk>(walk: &mut W, high: u32) -> Result<u32, W::Stop> {
    walk.field::<4>(|bits| unless(bits <= high, 6))
}

fn count<W: Walk>(walk: &mut W, least: i32) -> Result<u32, W::Stop> {
    walk.field::<4>(|bits| unless(bits.cast_signed() >= least, 8))
}

/// Its length.
fn string<W: Walk>(walk: &mut W, least: i32) -> Result<usize, W::Stop> {
    let length = count(walk, least)? as usize;
    walk.run::<2>(length)?;
    Ok(length)
}

/// A component from 0 to 1 by its bits, -0 among them.
fn component<W: Walk>(walk: &mut W) -> Result<u32, W::Stop> {
    walk.field::<4>(|bits| unless((0.0..=1.0).contains(&f32::from_bits(bits)), 9))
}

fn components<W: Walk>(walk: &mut W, count: u32) -> Result<(), W::Stop> {
    for _ in 0..count {
        component(walk)?;
    }
    Ok(())
}

/// A char of these; the version decides about `D` (from 1.3), `Y` and `S` (from 1.4).
fn paint_letter<W: Walk>(walk: &mut W, minor: u32, plain: bool) -> Result<u32, W::Stop> {
    walk.field::<2>(|bits| {
        let allowed = match u8::try_from(bits) {
            Ok(b'T' | b'R' | b'C') => true,
            Ok(b'Y' | b'S') => minor >= 4,
            Ok(b'G') => !plain,
            Ok(b'D') => !plain && minor >= 3,
            _ => false,
        };
        unless(allowed, 7)
    })
}

fn plain_parts<W: Walk>(walk: &mut W, letter: u32) -> Result<(), W::Stop> {
    match letter as u8 {
        b'R' => components(walk, 4),
        b'C' => components(walk, 5),
        b'Y' => components(walk, 2),
        b'S' => {
            walk.field::<4>(|bits| unless((0.0..360.0).contains(&f32::from_bits(bits)), 9))?;
            components(walk, 3)
        }
        _ => Ok(()),
    }
}

fn plain<W: Walk>(walk: &mut W, minor: u32) -> Result<(), W::Stop> {
    let letter = paint_letter(walk, minor, true)?;
    plain_parts(walk, letter)
}

fn paint<W: Walk>(walk: &mut W, minor: u32) -> Result<(), W::Stop> {
    let letter = paint_letter(walk, minor, false)?;
    let highest = match letter as u8 {
        b'G' => 7,
        b'D' => 8,
        _ => return plain_parts(walk, letter),
    };
    plain(walk, minor)?;
    plain(walk, minor)?;
    integer(walk, highest)?;
    Ok(())
}

fn float_if<W: Walk>(walk: &mut W, there: bool) -> Result<(), W::Stop> {
    if there {
        walk.run::<4>(1)?;
    }
    Ok(())
}

fn marker_id<W: Walk>(walk: &mut W, minor: u32, chain_is_full: bool) -> Result<u32, W::Stop> {
    let highest = match minor {
        0 => 7,
        1..=3 => 21,
        _ => 79,
    };
    walk.field::<1>(|bits| {
        if bits > highest {
            return 6;
        }
        unless(bits == 0 || !chain_is_full, 10)
    })
}

/// A marker of 1.0.
fn arrow<W: Walk>(walk: &mut W) -> Result<(), W::Stop> {
    if marker_id(walk, 0, false)? != 0 {
        walk.run::<4>(1)?;
        flag(walk)?;
        flag(walk)?;
    }
    Ok(())
}

fn chain<W: Walk>(walk: &mut W, minor: u32) -> Result<(), W::Stop> {
    let mut markers = 0;
    while marker_id(walk, minor, markers == LONGEST_CHAIN)? != 0 {
        markers += 1;
        walk.run::<4>(1)?;
        byte(walk, 1, 3)?;
        flag(walk)?;
        let auto_orient = flag(walk)?;
        float_if(walk, !auto_orient)?;
        plain(walk, minor)?;
        let overlay = flag(walk)?;
        if minor >= 4 && !overlay {
            for _ in 0..2 {
                let there = flag(walk)?;
                float_if(walk, there)?;
            }
        }
    }
    Ok(())
}

fn line_style<W: Walk>(walk: &mut W, minor: u32) -> Result<(), W::Stop> {
    walk.run::<4>(1)?;
    let dashes = walk.field::<4>(|bits| unless(bits.cast_signed() >= 0 && bits % 2 == 0, 8))?;
    if dashes != 0 {
        walk.run::<4>(dashes as usize + 1)?;
    }
    byte(walk, 0, 2)?;
    let join = byte(walk, 0, 2)?;
    float_if(walk, join == 0)?;
    byte(walk, 0, 1)?;
    if minor == 0 {
        arrow(walk)?;
        return arrow(walk);
    }
    for _ in 0..3 {
        chain(walk, minor)?;
    }
    Ok(())
}

/// Whether the segment is a curve.
fn segment_letter<W: Walk>(walk: &mut W) -> Result<bool, W::Stop> {
    let is = |bits: u32, letter: u8| bits == u32::from(letter);
    let bits = walk.field::<2>(|bits| unless(is(bits, b'B') || is(bits, b'L') || is(bits, b'M'), 7))?;
    Ok(is(bits, b'B'))
}

fn free_point<W: Walk>(walk: &mut W) -> Result<[u64; 2], W::Stop> {
    Ok([walk.double(|_| 0)?, walk.double(|_| 0)?])
}

/// Below 1.3: each segment begins with the end of the one before.
fn joined_segments<W: Walk>(walk: &mut W, n: u32) -> Result<(), W::Stop> {
    let mut before: Option<[u64; 2]> = None;
    for _ in 0..n {
        let curve = segment_letter(walk)?;
        match before {
            None => walk.run::<8>(2)?,
            Some([x, y]) => {
                walk.double(|bits| unless(bits == x, 12))?;
                walk.double(|bits| unless(bits == y, 12))?;
            }
        }
        if curve {
            walk.run::<8>(4)?;
        }
        before = Some(free_point(walk)?);
    }
    Ok(())
}

fn path<W: Walk>(walk: &mut W, minor: u32) -> Result<(), W::Stop> {
    paint(walk, minor)?;
    paint(walk, minor)?;
    line_style(walk, minor)?;
    outline(walk, minor)
}

fn outline<W: Walk>(walk: &mut W, minor: u32) -> Result<(), W::Stop> {
    walk.field::<2>(|bits| unless(bits == u32::from(b'O') || bits == u32::from(b'C'), 7))?;
    let n = count(walk, 1)?;
    walk.outlined(n);
    if minor < 3 {
        return joined_segments(walk, n);
    }
    walk.run::<8>(2)?;
    for _ in 0..n {
        let curve = segment_letter(walk)?;
        walk.run::<8>(if curve { 6 } else { 2 })?;
    }
    Ok(())
}

fn text<W: Walk>(walk: &mut W, minor: u32) -> Result<(), W::Stop> {
    text_style(walk)?;
    paint(walk, minor)?;
    string(walk, 1)?;
    Ok(())
}

/// Here the paint comes first.
fn text_path<W: Walk>(walk: &mut W, minor: u32) -> Result<(), W::Stop> {
    paint(walk, minor)?;
    text_style(walk)?;
    string(walk, 1)?;
    outline(walk, minor)
}

fn text_style<W: Walk>(walk: &mut W) -> Result<(), W::Stop> {
    string(walk, 0)?;
    byte(walk, 0, 1)?;
    byte(walk, 0, 1)?;
    integer(walk, i32::MAX as u32)?;
    walk.run::<8>(6)?;
    if flag(walk)? {
        for _ in 0..4 {
            string(walk, 0)?;
        }
        byte(walk, 0, 2)?;
        byte(walk, 0, 3)?;
        string(walk, 0)?;
    }
    Ok(())
}

fn bitmap<W: Walk>(walk: &mut W) -> Result<(), W::Stop> {
    string(walk, 1)?;
    if flag(walk)? {
        string(walk, 0)?;
        string(walk, 0)?;
    }
    walk.run::<8>(6)
}

/// The flow frame flag, and from 1.2 the description.
fn ending<W: Walk>(walk: &mut W, minor: u32) -> Result<(), W::Stop> {
    walk.flag(11)?;
    let length = if minor >= 2 { string(walk, 0)? } else { 0 };
    walk.described(length);
    Ok(())
}

fn paper<W: Walk>(walk: &mut W, minor: u32) -> Result<(), W::Stop> {
    let id = byte(walk, 0, if minor < 3 { 18 } else { 72 })?;
    if id == u32::from(OWN_PAPER) {
        walk.run::<8>(2)?;
        if minor < 3 {
            flag(walk)?;
        }
    }
    Ok(())
}

pub fn settings<W: Walk>(walk: &mut W, minor: u32) -> Result<(), W::Stop> {
    let id = if minor < 3 { u32::from(flag(walk)?) } else { byte(walk, 0, 2)? };
    if id == 1 {
        for _ in 0..3 {
            flag(walk)?;
        }
        integer(walk, 7)?;
        walk.run::<4>(1)?;
        paper(walk, minor)?;
        byte(walk, 0, 3)?;
        return walk.run::<4>(2);
    }
    if id == 2 {
        paper(walk, minor)?;
    }
    Ok(())
}

/// An object and all that it holds; as a group it has this depth.
pub fn object<W: Walk>(walk: &mut W, minor: u32, parent: usize, depth: u32) -> Result<(), W::Stop> {
    let mut opened = walk.open(minor, parent, depth)?;
    match opened.kind {
        GROUP => {
            let n = walk.members(&opened)?;
            for _ in 0..n {
                object(walk, minor, opened.row, depth + 1)?;
            }
            walk.members_done(&mut opened, n)?;
        }
        PATH => path(walk, minor)?,
        TEXT => text(walk, minor)?,
        BITMAP => bitmap(walk)?,
        _ => text_path(walk, minor)?,
    }
    ending(walk, minor)?;
    walk.close(opened, parent)
}

/// The number of what is wrong with an object of this kind in this version and at this depth, or 0. The outer object, of depth 1, has to
/// be a group.
#[inline(always)]
pub fn kind_fault(kind: u32, minor: u32, depth: u32) -> u32 {
    match kind {
        GROUP => unless(depth <= DEEPEST_GROUP, 10),
        PATH | TEXT | BITMAP => unless(depth > 1, 7),
        TEXT_PATH => unless(depth > 1 && minor >= 5, 7),
        _ => 7,
    }
}
