//! Good drawings of every version, from a seed.

pub mod coordinates;
pub mod edges;
mod parts;
pub mod sheets;
pub mod special;
mod values;

use crate::model::{AllSettings, Chars, Drawing, Group, Object, OwnPaper, Paper, Settings};
use crate::random::Random;
use crate::version::{Version, DEEPEST_GROUP, LONGEST_FILE, OWN_PAPER};
use crate::write;

/// Makes the parts of one drawing.
pub struct Maker {
    pub random: Random,
    pub version: Version,
    /// The descriptions that most objects take, so that a label is found often.
    pub labels: Vec<Chars>,
    /// The longest string.
    pub longest: usize,
    /// Whether every float and double that is free is a NaN.
    pub only_nans: bool,
    /// How readily groups stand in groups: one object in so many is a group.
    group_once_in: usize,
    /// How readily groups are empty: one in so many is, the outer one more seldom, and without a number none.
    empty_once_in: Option<usize>,
}

/// A string of these letters.
pub fn chars(letters: &str) -> Chars {
    letters.encode_utf16().collect()
}

/// Labels of all sorts: empty, prefixes of one another, chars 0 and 0xFFFF.
pub fn all_labels() -> Vec<Chars> {
    let mut labels = ["", "m", "ma", "machine", "machine 1", "Machine"].map(chars).to_vec();
    labels.extend([
        vec![0],
        vec![0, 0],
        vec![0xFFFF],
        vec![0x006D, 0],
        chars("a fairly long label of a machine"),
    ]);
    labels
}

impl Maker {
    pub fn new(seed: u64, version: Version) -> Maker {
        let mut random = Random::new(seed);
        let all = all_labels();
        let labels = (0..random.within(1, 4)).map(|_| random.pick(&all).clone()).collect();
        let group_once_in = *random.pick(&[2, 4, 4, 8, 30]);
        let (longest, only_nans, empty_once_in) = (60, false, None);
        Maker { random, version, labels, longest, only_nans, group_once_in, empty_once_in }
    }

    /// Below 1.2 every description is empty.
    pub fn description(&mut self) -> Chars {
        if !self.version.has_descriptions() {
            return Chars::new();
        }
        if self.random.once_in(8) {
            return self.string(0);
        }
        let labels = &self.labels;
        self.random.pick(labels).clone()
    }

    pub fn settings(&mut self) -> Settings {
        match self.random.below(3) {
            0 => Settings::None,
            1 if self.version.has_settings_byte() => Settings::PaperOnly(self.paper()),
            _ => Settings::All(self.all_settings()),
        }
    }

    pub fn all_settings(&mut self) -> AllSettings {
        AllSettings {
            grid: self.random.flag(),
            lock: self.random.flag(),
            rulers: self.random.flag(),
            tool: self.random.within(0, 7) as i32,
            normal_size: self.integer(),
            paper: self.paper(),
            unit: self.random.byte(3),
            major: self.integer(),
            minor: self.integer(),
        }
    }

    fn paper(&mut self) -> Paper {
        let id = self.random.byte(self.version.highest_paper());
        if id == OWN_PAPER || self.random.once_in(3) {
            self.own_paper()
        } else {
            Paper { id, own: None }
        }
    }

    pub fn own_paper(&mut self) -> Paper {
        let portrait = if self.version.has_portrait_flag() { Some(self.random.flag()) } else { None };
        let own = OwnPaper { width: self.double(), height: self.double(), portrait };
        Paper { id: OWN_PAPER, own: Some(own) }
    }

    /// An object inside a group of depth `around`, of about `room` bytes if it is a group.
    fn object(&mut self, around: u32, room: usize) -> Object {
        if around < DEEPEST_GROUP && self.random.once_in(self.group_once_in) {
            let room = self.random.within(0, room);
            return Object::Group(self.group(around + 1, room));
        }
        let leaves = if self.version.has_text_paths() { 4 } else { 3 };
        match self.random.below(leaves) {
            0 => Object::Path(self.path()),
            1 => Object::Text(self.text()),
            2 => Object::Bitmap(self.bitmap()),
            _ => Object::TextPath(self.text_path()),
        }
    }

    /// A group of objects that fill the room, or an empty one.
    pub fn group(&mut self, depth: u32, room: usize) -> Group {
        let seldom = if depth == 1 { 4 } else { 1 };
        let empty = self.empty_once_in.is_some_and(|times| self.random.once_in(seldom * times));
        let objects = if empty { Vec::new() } else { self.objects(depth, room) };
        Group { objects, description: self.description() }
    }

    /// At least one object, and more while they fit into the room.
    fn objects(&mut self, depth: u32, room: usize) -> Vec<Object> {
        let mut objects = vec![self.object(depth, room)];
        let mut used = write::object_length(self.version, &objects[0]);
        while used < room {
            let object = self.object(depth, room - used);
            used += write::object_length(self.version, &object);
            if used > room {
                break;
            }
            objects.push(object);
        }
        objects
    }
}

/// A good drawing of about this size, and never over the limit. It has no empty group: the plans that are measured are such drawings.
pub fn drawing(seed: u64, version: Version, size: usize) -> Drawing {
    made_by(Maker::new(seed, version), size)
}

/// The same with more groups, many of them empty. The outer one may be empty too, and is then all there is.
pub fn with_empty_groups(seed: u64, version: Version, size: usize) -> Drawing {
    let mut maker = Maker::new(seed, version);
    maker.group_once_in = maker.group_once_in.min(4);
    maker.empty_once_in = Some(*maker.random.pick(&[2, 3, 4]));
    made_by(maker, size)
}

fn made_by(mut maker: Maker, size: usize) -> Drawing {
    let version = maker.version;
    maker.longest = (size / 16).max(8);
    loop {
        let settings = maker.settings();
        let outer = maker.group(1, size);
        let drawing = Drawing { version, settings, outer };
        if write::length(&drawing) <= LONGEST_FILE {
            return drawing;
        }
    }
}
