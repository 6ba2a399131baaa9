//! The marked plans and the other cases that 01 names ('Plans that settle an argument'), as 02 changes them.

/// A file put together by hand, field by field.
#[derive(Clone, Default)]
pub struct Hand(pub Vec<u8>);

impl Hand {
    pub fn chars(mut self, letters: &str) -> Hand {
        letters.encode_utf16().for_each(|char| self.0.extend(char.to_be_bytes()));
        self
    }

    pub fn integer(mut self, value: i32) -> Hand {
        self.0.extend(value.to_be_bytes());
        self
    }

    pub fn byte(mut self, value: u8) -> Hand {
        self.0.push(value);
        self
    }

    pub fn float(mut self, value: f32) -> Hand {
        self.0.extend(value.to_bits().to_be_bytes());
        self
    }

    pub fn double(mut self, value: f64) -> Hand {
        self.0.extend(value.to_bits().to_be_bytes());
        self
    }

    /// The doubles 1 0 0 1 0 0.
    pub fn transformation(self) -> Hand {
        [1.0, 0.0, 0.0, 1.0, 0.0, 0.0].into_iter().fold(self, Hand::double)
    }

    /// A string: its length and its chars.
    pub fn string(self, letters: &str) -> Hand {
        self.integer(letters.encode_utf16().count() as i32).chars(letters)
    }

    /// `JDR`, 3, the version.
    pub fn head(version: &str) -> Hand {
        Hand::default().chars("JDR").integer(3).chars(version)
    }
}

/// Plan A, 82 bytes.
pub fn plan_a() -> Vec<u8> {
    let outer = Hand::head("1.0").byte(0).chars("G").integer(1);
    outer.chars("I").string("a").byte(0).transformation().byte(0).byte(0).0
}

/// Plan A with other bytes at one offset.
fn plan_a_with(offset: usize, bytes: &[u8]) -> Vec<u8> {
    let mut file = plan_a();
    file[offset..offset + bytes.len()].copy_from_slice(bytes);
    file
}

/// A marked plan: its name, its file, and the number and offset that 01 gives it.
pub struct Plan {
    pub name: &'static str,
    pub file: Vec<u8>,
    pub number: u32,
    pub offset: u32,
}

fn plan(name: &'static str, file: Vec<u8>, number: u32, offset: u32) -> Plan {
    Plan { name, file, number, offset }
}

/// m1 to m13; m14 is plan A with less room.
pub fn marked() -> Vec<Plan> {
    let mut one_more = plan_a();
    one_more.push(0);
    vec![
        plan("m1: plan A (m14: its smaller rooms)", plan_a(), 0, 82),
        plan("m2: no bytes", Vec::new(), 2, 0),
        plan("m3: the first 4 bytes", plan_a()[..4].to_vec(), 2, 0),
        plan("m4: JDS", plan_a_with(5, b"S"), 3, 0),
        plan("m5: version length 4", plan_a_with(6, &[0, 0, 0, 4]), 4, 6),
        plan("m6: version 1.6", plan_a_with(15, b"6"), 4, 10),
        plan("m7: settings 2", plan_a_with(16, &[2]), 6, 20),
        plan("m8: outer id T", plan_a_with(18, b"T"), 7, 17),
        plan("m9: n = 0", plan_a_with(19, &[0, 0, 0, 0]), 13, 24),
        plan("m10: n = 2", plan_a_with(19, &[0, 0, 0, 2]), 2, 81),
        plan("m11: name length -1", plan_a_with(25, &[255; 4]), 8, 25),
        plan("m12: flow flag 1", plan_a_with(80, &[1]), 11, 80),
        plan("m12: flow flag 2", plan_a_with(80, &[2]), 11, 80),
        plan("m13: one byte more", one_more, 13, 82),
    ]
}
