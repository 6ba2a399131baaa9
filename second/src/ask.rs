//! The questions about a paint, a text and a description, and the text to show (01, 'Paint' and 'Text to show').
//!
//! They give 16 for a bad table, 6 for a row out of range, 7 for a row with no such part,
//! in that order. They answer a text along a path as a text (02, R-1). Every row has a description.

use crate::answer::{Color, DescriptionAnswer, PaintAnswer, TextAnswer};
use crate::check::Good;
use crate::layout;
use crate::list::{opened, Opened, Part};
use crate::model::{Chars, Float, Gradient, Latex, Paint, Plain, Text, TextStyle};
use crate::table::Words;
use crate::version::Version;

/// The row's object, or the refusal's number.
pub fn object<'a>(good: Option<&'a Good>, row: u32) -> Result<(&'a Good, Opened<'a>), u32> {
    let good = good.ok_or(16u32)?;
    let mut objects = opened(&good.drawing);
    if row as usize >= objects.len() {
        return Err(6);
    }
    Ok((good, objects.swap_remove(row as usize)))
}

/// The paint question; which: 0 line, 1 fill, 2 text, and any other is a part that no row has.
pub fn paint(good: Option<&Good>, row: u32, which: u32) -> PaintAnswer {
    let found = object(good, row).and_then(|(_, object)| match (object.part, which) {
        (Part::Path(path), 0) => Ok(&path.line),
        (Part::Path(path), 1) => Ok(&path.fill),
        (Part::Text(text), 2) => Ok(&text.paint),
        (Part::TextPath(along), 2) => Ok(&along.text.paint),
        _ => Err(7),
    });
    match found {
        Ok(paint) => paint_answer(paint),
        Err(number) => PaintAnswer::refused(number),
    }
}

fn paint_answer(paint: &Paint) -> PaintAnswer {
    match paint {
        Paint::Plain(plain) => PaintAnswer { first: color(plain), ..PaintAnswer::default() },
        Paint::Linear(gradient) => gradient_answer(1, gradient),
        Paint::Radial(gradient) => gradient_answer(2, gradient),
    }
}

/// A gradient comes with its two plain paints and its integer.
fn gradient_answer(form: u32, gradient: &Gradient) -> PaintAnswer {
    PaintAnswer {
        number: 0,
        form,
        place: gradient.place.cast_unsigned(),
        first: color(&gradient.first),
        second: color(&gradient.second),
    }
}

fn color(plain: &Plain) -> Color {
    match plain {
        Plain::Transparent => Color::default(),
        Plain::Rgb(components) => Color { kind: 1, c: five(components) },
        Plain::Cmyk(components) => Color { kind: 2, c: five(components) },
        Plain::Grey(components) => Color { kind: 3, c: five(components) },
        Plain::Hsb(components) => Color { kind: 4, c: five(components) },
    }
}

/// Components in file order; the unused ones are +0.
fn five(components: &[Float]) -> [f32; 5] {
    let mut all = [0.0; 5];
    for (place, bits) in all.iter_mut().zip(components) {
        *place = f32::from_bits(*bits);
    }
    all
}

/// The text question: the places of the alternative's chars and of the plain text's.
pub fn text(good: Option<&Good>, row: u32) -> TextAnswer {
    match object(good, row) {
        Err(number) => TextAnswer::refused(number),
        Ok((good, object)) => match object.part {
            Part::Text(text) => text_answer(good, row, text, 0),
            Part::TextPath(along) => {
                let text = &along.text;
                text_answer(good, row, text, paint_words(good.drawing.version, &text.paint))
            }
            _ => TextAnswer::refused(7),
        },
    }
}

/// Places are indexes into the whole run of bodies. 0 and 0 for the alternative without LaTeX fields.
/// The style begins after so many words of the body: along a path the paint comes first.
fn text_answer(good: &Good, row: u32, text: &Text, before_style: usize) -> TextAnswer {
    let body = good.table.row(row).map_or(0, |words| words[2]) as usize;
    let version = good.drawing.version;
    let mut answer = TextAnswer::default();
    if let Some(latex) = &text.style.latex {
        let in_style = words_before_latex(&text.style) + words_before_alternative(latex);
        answer.alternative_start = (body + before_style + in_style) as u32;
        answer.alternative_length = latex.alternative.len() as u32;
    }
    answer.text_start = (body + words_before_text(version, text)) as u32;
    answer.text_length = text.text.len() as u32;
    answer
}

/// Of the style: family, shape, series, size, transformation and the flag.
fn words_before_latex(style: &TextStyle) -> usize {
    string_words(&style.family) + 1 + 1 + 1 + 2 * style.transformation.len() + 1
}

/// Family, series, shape, size, horizontal, vertical and the alternative's own length.
fn words_before_alternative(latex: &Latex) -> usize {
    let strings = [&latex.family, &latex.series, &latex.shape, &latex.size];
    strings.into_iter().map(string_words).sum::<usize>() + 1 + 1 + 1
}

/// All that stands before the text's first char, wherever the paint is: its own length word is the last of them.
fn words_before_text(version: Version, text: &Text) -> usize {
    let latex = text.style.latex.as_ref();
    let latex_words = latex.map_or(0, |latex| words_before_alternative(latex) + latex.alternative.len());
    words_before_latex(&text.style) + latex_words + paint_words(version, &text.paint) + 1
}

/// A length word and a word for each char.
fn string_words(chars: &Chars) -> usize {
    1 + chars.len()
}

fn paint_words(version: Version, paint: &Paint) -> usize {
    let mut words = Vec::new();
    layout::paint(&mut Words(&mut words), version, paint);
    words.len()
}

/// The description question: the place of its chars, with which every body ends from 1.2 on. Below, 0 and 0.
pub fn description(good: Option<&Good>, row: u32) -> DescriptionAnswer {
    let (good, object) = match object(good, row) {
        Err(number) => return DescriptionAnswer::refused(number),
        Ok(found) => found,
    };
    if !good.drawing.version.has_descriptions() {
        return DescriptionAnswer::default();
    }
    let end = good.table.row(row).map_or(0, |words| words[2] + words[3]);
    let length = object.description.len() as u32;
    DescriptionAnswer { number: 0, start: end - length, length }
}

/// The text to show: the alternative if it has a char, otherwise the plain text, as that very run.
pub fn shown<'a, T>(alternative: &'a [T], plain: &'a [T]) -> &'a [T] {
    if alternative.is_empty() {
        plain
    } else {
        alternative
    }
}
