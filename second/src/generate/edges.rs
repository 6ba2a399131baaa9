//! Drawings that leave nothing to chance where `special::sampler` does: the halves of gradients, the
//! lengths of chains, the settings, and the two ends of every range.

use super::special::{plain_bitmap, plain_drawing, sampler};
use super::Maker;
use crate::model::{
    AllSettings, Arrow, Drawing, Gradient, LineStyle, Marker, Markers, Object, Paint, Paper, Plain, Settings,
    Text,
};
use crate::version::{Version, LONGEST_CHAIN, OWN_PAPER};

/// Texts in every form of gradient, each plain paint first once and second once; paths with chains of
/// every length at every place.
pub fn every_pairing(seed: u64, version: Version) -> Drawing {
    let mut maker = Maker::new(seed, version);
    maker.longest = 6;
    let mut objects = every_gradient(&mut maker);
    objects.extend((0..=LONGEST_CHAIN).map(|length| path_with_chains(&mut maker, length)));
    plain_drawing(version, objects)
}

fn every_gradient(maker: &mut Maker) -> Vec<Object> {
    let letters = maker.version.plain_letters();
    let mut texts = Vec::new();
    for form in maker.version.paint_letters().iter().filter(|form| b"GD".contains(form)) {
        for (place, letter) in letters.iter().enumerate() {
            let mut paint = maker.paint_of(*form);
            if let Paint::Linear(gradient) | Paint::Radial(gradient) = &mut paint {
                gradient.first = maker.plain_of(*letter);
                gradient.second = maker.plain_of(letters[(place + 1) % letters.len()]);
            }
            texts.push(Object::Text(Text { paint, ..maker.text() }));
        }
    }
    texts
}

/// A path with chains of this length and of the two lengths after it, or with arrows at one end.
fn path_with_chains(maker: &mut Maker, length: usize) -> Object {
    let mut path = maker.path();
    let after = |more: usize| (length + more) % (LONGEST_CHAIN + 1);
    path.style.markers = if maker.version.has_chains() {
        let [start, mid, end] = [0, 1, 2].map(|more| maker.chain(after(more)));
        Markers::Chains { start, mid, end }
    } else {
        let arrow = Some(maker.arrow());
        match length % 2 {
            0 => Markers::Arrows { start: arrow, end: None },
            _ => Markers::Arrows { start: None, end: arrow },
        }
    };
    Object::Path(path)
}

/// One bitmap with each kind of settings of this version, with a paper of the user's own and a listed one.
pub fn every_settings(seed: u64, version: Version) -> Vec<Drawing> {
    let mut maker = Maker::new(seed, version);
    let mut settings = vec![Settings::None];
    for paper in [maker.own_paper(), Paper { id: OWN_PAPER - 1, own: None }] {
        let mut all = maker.all_settings();
        all.paper = paper.clone();
        settings.push(Settings::All(all));
        if version.has_settings_byte() {
            settings.push(Settings::PaperOnly(paper));
        }
    }
    let bitmap = || vec![Object::Bitmap(plain_bitmap(1))];
    let drawing = |settings| Drawing { settings, ..plain_drawing(version, bitmap()) };
    settings.into_iter().map(drawing).collect()
}

/// The sampler with the lowest, or the highest, value in every field that has a range.
pub fn at_ends(seed: u64, version: Version, highest: bool) -> Drawing {
    let mut drawing = sampler(seed, version);
    let ends = Ends { version, highest };
    if let Settings::All(all) = &mut drawing.settings {
        ends.settings(all);
    }
    drawing.outer.objects.iter_mut().for_each(|object| ends.object(object));
    drawing
}

/// Puts every field at one end of its range.
struct Ends {
    version: Version,
    highest: bool,
}

impl Ends {
    fn pick<T>(&self, low: T, high: T) -> T {
        if self.highest {
            high
        } else {
            low
        }
    }

    fn settings(&self, all: &mut AllSettings) {
        for flag in [&mut all.grid, &mut all.lock, &mut all.rulers] {
            *flag = self.highest;
        }
        for any in [&mut all.normal_size, &mut all.major, &mut all.minor] {
            *any = self.pick(i32::MIN, i32::MAX);
        }
        all.tool = self.pick(0, 7);
        all.unit = self.pick(0, 3);
        self.paper(&mut all.paper);
    }

    /// Below 1.3 the highest paper is the user's own.
    fn paper(&self, paper: &mut Paper) {
        paper.id = self.pick(0, self.version.highest_paper().cast_unsigned());
        match &mut paper.own {
            Some(own) if paper.id == OWN_PAPER => own.portrait = own.portrait.map(|_| self.highest),
            _ => paper.own = None,
        }
    }

    fn object(&self, object: &mut Object) {
        match object {
            Object::Group(group) => group.objects.iter_mut().for_each(|object| self.object(object)),
            Object::Path(path) => {
                self.paint(&mut path.line);
                self.paint(&mut path.fill);
                self.style(&mut path.style);
            }
            Object::Text(text) => self.text(text),
            Object::Bitmap(_) => {}
            Object::TextPath(along) => self.text(&mut along.text),
        }
    }

    fn text(&self, text: &mut Text) {
        self.paint(&mut text.paint);
        let style = &mut text.style;
        style.shape = self.pick(0, 1);
        style.series = self.pick(0, 1);
        style.size = self.pick(0, i32::MAX);
        if let Some(latex) = &mut style.latex {
            latex.horizontal = self.pick(0, 2);
            latex.vertical = self.pick(0, 3);
        }
    }

    fn paint(&self, paint: &mut Paint) {
        match paint {
            Paint::Plain(plain) => self.plain(plain),
            Paint::Linear(gradient) => self.gradient(gradient, 7),
            Paint::Radial(gradient) => self.gradient(gradient, 8),
        }
    }

    fn gradient(&self, gradient: &mut Gradient, last: i32) {
        gradient.place = self.pick(0, last);
        self.plain(&mut gradient.first);
        self.plain(&mut gradient.second);
    }

    /// -0 and 1; the last hue is the float before 360.
    fn plain(&self, plain: &mut Plain) {
        let component = self.pick(0x8000_0000, 1.0f32.to_bits());
        match plain {
            Plain::Transparent => {}
            Plain::Rgb(components) => components.fill(component),
            Plain::Cmyk(components) => components.fill(component),
            Plain::Grey(components) => components.fill(component),
            Plain::Hsb(components) => {
                components.fill(component);
                components[0] = self.pick(0x8000_0000, 360.0f32.to_bits() - 1);
            }
        }
    }

    fn style(&self, style: &mut LineStyle) {
        style.cap = self.pick(0, 2);
        style.join = self.pick(0, 2);
        style.mitre_limit = self.pick(Some(style.width), None);
        style.winding = self.pick(0, 1);
        match &mut style.markers {
            Markers::Arrows { start, end } => {
                [start, end].into_iter().flatten().for_each(|arrow| self.arrow(arrow));
            }
            Markers::Chains { start, mid, end } => {
                [start, mid, end].into_iter().flatten().for_each(|marker| self.marker(marker));
            }
        }
    }

    fn marker_id(&self) -> u8 {
        self.pick(1, self.version.highest_marker().cast_unsigned())
    }

    fn arrow(&self, arrow: &mut Arrow) {
        arrow.id = self.marker_id();
        arrow.double = self.highest;
        arrow.reversed = self.highest;
    }

    /// With the flag overlay a marker has no offsets.
    fn marker(&self, marker: &mut Marker) {
        marker.id = self.marker_id();
        marker.repeat = self.pick(1, 3);
        marker.reversed = self.highest;
        marker.angle = self.pick(Some(marker.size), None);
        self.plain(&mut marker.paint);
        marker.overlay = self.highest;
        marker.user_offset = None;
        marker.repeat_offset = None;
    }
}
