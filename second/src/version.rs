//! What each version has (01, 'What a plan may contain' and 'Fields'; 02, R-1).

/// A version 1.0 to 1.5, named by its minor number.
#[derive(Clone, Copy, Debug, PartialEq, Eq, PartialOrd, Ord)]
pub struct Version {
    minor: u8,
}

impl Version {
    /// The six versions that a plan may have.
    pub const ALL: [Version; 6] = [
        Version { minor: 0 },
        Version { minor: 1 },
        Version { minor: 2 },
        Version { minor: 3 },
        Version { minor: 4 },
        Version { minor: 5 },
    ];

    /// The version of this minor number, if it is listed.
    pub fn from_minor(minor: u32) -> Option<Version> {
        Version::ALL.into_iter().find(|version| u32::from(version.minor) == minor)
    }

    /// The version of these three chars, if it is listed.
    pub fn from_chars(chars: [u16; 3]) -> Option<Version> {
        Version::ALL.into_iter().find(|version| version.chars() == chars)
    }

    pub fn minor(self) -> u8 {
        self.minor
    }

    /// The version's three chars, as `1.0`.
    pub fn chars(self) -> [u16; 3] {
        [u16::from(b'1'), u16::from(b'.'), u16::from(b'0' + self.minor)]
    }

    /// 'From 1.1' a path has a mid marker, and each marker may be a chain.
    pub fn has_chains(self) -> bool {
        self.minor >= 1
    }

    /// 'From 1.2 a description string.'
    pub fn has_descriptions(self) -> bool {
        self.minor >= 2
    }

    /// 'Below 1.3 a flag; from 1.3 a byte.'
    pub fn has_settings_byte(self) -> bool {
        self.minor >= 3
    }

    /// A paper of the user's own: 'below 1.3 a flag, 1 for portrait'.
    pub fn has_portrait_flag(self) -> bool {
        self.minor < 3
    }

    /// 'From 1.3 two doubles, the start point'; below, each segment has its own.
    pub fn has_path_start(self) -> bool {
        self.minor >= 3
    }

    /// 'In 1.4, if overlay is 0', two flags, each with an offset if 1; so too in 1.5.
    pub fn has_marker_offsets(self) -> bool {
        self.minor >= 4
    }

    /// 1.5 'is 1.4 with one more object, X'.
    pub fn has_text_paths(self) -> bool {
        self.minor >= 5
    }

    /// Paper: '0 to 18 below 1.3, 0 to 72 from 1.3'.
    pub fn highest_paper(self) -> i8 {
        if self.minor < 3 {
            18
        } else {
            72
        }
    }

    /// Marker id: '0 to 7' in 1.0, '0 to 21 (0 to 79 in 1.4)' from 1.1; in 1.5 as in 1.4.
    pub fn highest_marker(self) -> i8 {
        match self.minor {
            0 => 7,
            1..=3 => 21,
            _ => 79,
        }
    }

    /// The chars that a plain paint may begin with: `Y` and `S` from 1.4.
    pub fn plain_letters(self) -> &'static [u8] {
        if self.minor < 4 {
            b"TRC"
        } else {
            b"TRCYS"
        }
    }

    /// The chars that any paint may begin with: `D` from 1.3, `Y` and `S` from 1.4.
    pub fn paint_letters(self) -> &'static [u8] {
        match self.minor {
            0..=2 => b"TRCG",
            3 => b"TRCGD",
            _ => b"TRCYSGD",
        }
    }

    /// The letters of the objects: group, path, text, bitmap, and from 1.5 text along a path.
    pub fn object_letters(self) -> &'static [u8] {
        if self.has_text_paths() {
            b"GPTIX"
        } else {
            b"GPTI"
        }
    }
}

/// The letter of the outer object: 'the file is its head and one group'.
pub const OUTER_LETTERS: &[u8] = b"G";
/// Open or closed.
pub const PATH_LETTERS: &[u8] = b"OC";
pub const SEGMENT_LETTERS: &[u8] = b"BLM";

/// 'A file has at most 65,535 bytes.'
pub const LONGEST_FILE: usize = 65_535;
/// 'Groups nest at most 16 deep, the outer group being depth 1.'
pub const DEEPEST_GROUP: u32 = 16;
/// 'A chain of composite markers holds at most 4 markers whose id is not 0.'
pub const LONGEST_CHAIN: usize = 4;
/// The paper that is followed by its width and height.
pub const OWN_PAPER: u8 = 18;
