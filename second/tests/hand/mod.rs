//! Files put together by hand. The comments give the offset of each field.
#![allow(dead_code)]

use second::plans::Hand;

/// Version 1.0, a path of two segments; 134 bytes.
pub fn path_1_0() -> Vec<u8> {
    let mut hand = Hand::head("1.0").byte(0).chars("G").integer(1); // 0, 16, 17, 19
    hand = hand.chars("P").chars("T"); // 23, line 25
    hand = hand.chars("R").float(0.0).float(0.25).float(0.5).float(1.0); // fill 27; 29, 33, 37, 41
    hand = hand.float(-2.0).integer(0).byte(2).byte(1).byte(1); // width 45, dashes 49, cap 53, join 54, winding 55
    hand = hand.byte(0).byte(0); // markers 56, 57
    hand = hand.chars("O").integer(2); // 58, 60
    hand = hand.chars("L").double(1.0).double(2.0).double(3.0).double(0.0); // 64; 66, 74, 82, 90
    hand = hand.chars("M").double(3.0).double(0.0).double(5.0).double(6.0); // 98; 100, 108, 116, 124
    hand.byte(0).byte(0).0 // flow flags 132, 133
}

/// The words of that path: head 2, body 34, group 2.
#[rustfmt::skip]
pub const PATH_1_0: [u32; 38] = [
    0, 0, // head
    0x54, 0x52, 0, 0x3E80_0000, 0x3F00_0000, 0x3F80_0000, // T, R
    0xC000_0000, 0, 2, 1, 1, 0, 0, // width, dashes, cap, join, winding, markers
    0x4F, 2, // O, n
    0x4C, 0x3FF0_0000, 0, 0x4000_0000, 0, 0x4008_0000, 0, 0, 0, // L
    0x4D, 0x4008_0000, 0, 0, 0, 0x4014_0000, 0, 0x4018_0000, 0, // M
    0, // flow flag
    1, 0, // group
];

/// Version 1.4, a path with a hue, a radial gradient, dashes and a marker with an offset; 196 bytes.
pub fn path_1_4() -> Vec<u8> {
    let mut hand = Hand::head("1.4").byte(0).chars("G").integer(1); // 0, 16, 17, 19
    hand = hand.chars("P"); // 23
    hand = hand.chars("S").float(359.0).float(0.0).float(1.0).float(0.5); // 25; 27, 31, 35, 39
    hand = hand.chars("D").chars("Y").float(0.5).float(-0.0).chars("T").integer(8); // 43, 45; 47, 51; 55, 57
    hand = hand.float(1.0).integer(2).float(3.0).float(4.0).float(5.0); // width 61, dashes 65; 69, 73, offset 77
    hand = hand.byte(0).byte(0).float(10.0).byte(0); // cap 81, join 82, mitre limit 83, winding 87
    hand = hand.byte(79).float(5.0).byte(3).byte(1).byte(0).float(0.5); // id 88; 89, 93, 94, 95, angle 96
    hand = hand.chars("T").byte(0).byte(1).float(2.0).byte(0).byte(0); // 100; overlay 102, 103, 104, 108, id 109
    hand = hand.byte(0).byte(0); // mid 110, end 111
    hand = hand.chars("C").integer(1).double(1.0).double(2.0); // 112, 114, 118, 126
    hand = hand.chars("B"); // 134
    hand = [3.0, 4.0, 5.0, 6.0, 7.0, 8.0].into_iter().fold(hand, Hand::double); // 136 to 183
    hand.byte(0).integer(0).byte(0).string("m").0 // 184, 185; 189, 190, char 194
}

/// The words of that path: head 2, body 55, group 4.
#[rustfmt::skip]
pub const PATH_1_4: [u32; 61] = [
    4, 0, // head
    0x53, 0x43B3_8000, 0, 0x3F80_0000, 0x3F00_0000, // S
    0x44, 0x59, 0x3F00_0000, 0x8000_0000, 0x54, 8, // D
    0x3F80_0000, 2, 0x4040_0000, 0x4080_0000, 0x40A0_0000, // width, dashes
    0, 0, 0x4120_0000, 0, // cap, join, mitre limit, winding
    79, 0x40A0_0000, 3, 1, 0, 0x3F00_0000, 0x54, 0, 1, 0x4000_0000, 0, 0, // start marker
    0, 0, // mid, end
    0x43, 1, 0x3FF0_0000, 0, 0x4000_0000, 0, // C, n, start point
    0x42, 0x4008_0000, 0, 0x4010_0000, 0, 0x4014_0000, 0, // B
    0x4018_0000, 0, 0x401C_0000, 0, 0x4020_0000, 0, // its other points
    0, 0, // flow flag, description
    1, 0, 1, 0x6D, // group
];

/// Version 1.2, all settings with a paper of its own, a text with LaTeX fields; 192 bytes.
pub fn text_1_2() -> Vec<u8> {
    let mut hand = Hand::head("1.2").byte(1).byte(1).byte(0).byte(1); // 0, 16; 17, 18, 19
    hand = hand.integer(7).integer(-10).byte(18).double(1.0).double(2.0).byte(1); // 20, 24, 28, 29, 37, 45
    hand = hand.byte(3).integer(-1).integer(10); // 46, 47, 51
    hand = hand.chars("G").integer(1).chars("T"); // 55, 57, 61
    hand = hand.string("ab").byte(1).byte(0).integer(12).transformation(); // 63, 67, 69; 71, 72, 73, 77 to 124
    hand = hand.byte(1).string("").string("x").string("").string(""); // 125; 126, 130, char 134, 136, 140
    hand = hand.byte(2).byte(3).string(""); // 144, 145, 146
    hand = hand.chars("C"); // 150
    hand = [0.0, 0.0, 0.0, 0.0, 1.0].into_iter().fold(hand, Hand::float); // 152 to 171
    hand = hand.string("hi").byte(0).string("m"); // 172, 176, 178; 180, 181, char 185
    hand.byte(0).string("").0 // 187, 188
}

/// The words of that text: head 16, body 39, group 3.
#[rustfmt::skip]
pub const TEXT_1_2: [u32; 58] = [
    2, 1, 1, 0, 1, 7, 0xFFFF_FFF6, 18, // head: 0 to 7
    0x3FF0_0000, 0, 0x4000_0000, 0, 1, 3, 0xFFFF_FFFF, 10, // 8 to 15
    2, 0x61, 0x62, 1, 0, 12, // family, shape, series, size: 16 to 21
    0x3FF0_0000, 0, 0, 0, 0, 0, 0x3FF0_0000, 0, 0, 0, 0, 0, // transformation: 22 to 33
    1, 0, 1, 0x78, 0, 0, 2, 3, 0, // flag 34, strings, bytes, alternative's length 42
    0x43, 0, 0, 0, 0, 0x3F80_0000, // text paint: 43 to 48
    2, 0x68, 0x69, 0, 1, 0x6D, // text 49 to 51, flow flag, description
    1, 0, 0, // group
];

/// Version 1.5, a text along a path of two segments, with LaTeX fields; 200 bytes.
pub fn text_path_1_5() -> Vec<u8> {
    let mut hand = Hand::head("1.5").byte(0).chars("G").integer(1); // 0, 16, 17, 19
    hand = hand.chars("X").chars("Y").float(0.5).float(1.0); // 23, text paint 25; 27, 31
    hand = hand.string("f").byte(0).byte(1).integer(9).transformation(); // 35, char 39; 41, 42, 43, 47 to 94
    hand = hand.byte(1).string("").string("").string("").string("z"); // 95; 96, 100, 104, 108, char 112
    hand = hand.byte(0).byte(2).string("A"); // 114, 115, 116, char 120
    hand = hand.string("go"); // 122, 126, 128
    hand = hand.chars("O").integer(2).double(1.0).double(2.0); // 130, 132, 136, 144
    hand = hand.chars("L").double(3.0).double(4.0); // 152; 154, 162
    hand = hand.chars("M").double(5.0).double(6.0); // 170; 172, 180
    hand.byte(0).string("m").byte(0).string("").0 // 188, 189, char 193; 195, 196
}

/// The words of that text: head 2, body 52, group 3.
#[rustfmt::skip]
pub const TEXT_PATH_1_5: [u32; 57] = [
    5, 0, // head
    0x59, 0x3F00_0000, 0x3F80_0000, // text paint: 2 to 4
    1, 0x66, 0, 1, 9, // family, shape, series, size: 5 to 9
    0x3FF0_0000, 0, 0, 0, 0, 0, 0x3FF0_0000, 0, 0, 0, 0, 0, // transformation: 10 to 21
    1, 0, 0, 0, 1, 0x7A, 0, 2, 1, 0x41, // flag 22, strings, bytes, alternative 30 and 31
    2, 0x67, 0x6F, // text: 32 to 34
    0x4F, 2, 0x3FF0_0000, 0, 0x4000_0000, 0, // O, n, start point: 35 to 40
    0x4C, 0x4008_0000, 0, 0x4010_0000, 0, // L: 41 to 45
    0x4D, 0x4014_0000, 0, 0x4018_0000, 0, // M: 46 to 50
    0, 1, 0x6D, // flow flag, description
    1, 0, 0, // group
];

/// Version 1.0, an empty group and nothing else: the smallest file, 24 bytes.
pub fn empty_1_0() -> Vec<u8> {
    Hand::head("1.0").byte(0).chars("G").integer(0).byte(0).0 // 0, 16, 17, 19, flow flag 23
}

/// Version 1.2, empty groups before, inside and after another group; 84 bytes.
pub fn empty_1_2() -> Vec<u8> {
    let mut hand = Hand::head("1.2").byte(0).chars("G").integer(3); // 0, 16, 17, 19
    hand = hand.chars("G").integer(0).byte(0).string("bay"); // 23, 25, 29, 30, chars 34 to 39
    hand = hand.chars("G").integer(1); // 40, 42
    hand = hand.chars("G").integer(0).byte(0).string("bay"); // 46, 48, 52, 53, chars 57 to 62
    hand = hand.byte(0).string(""); // 63, 64
    hand = hand.chars("G").integer(0).byte(0).string(""); // 68, 70, 74, 75
    hand.byte(0).string("").0 // 79, 80
}

/// The words of these groups, in the order in which they end: head 2, bodies 6, 6, 3, 3, 3.
#[rustfmt::skip]
pub const EMPTY_1_2: [u32; 23] = [
    2, 0, // head
    0, 0, 3, 0x62, 0x61, 0x79, // row 1, empty
    0, 0, 3, 0x62, 0x61, 0x79, // row 3, empty, inside row 2
    1, 0, 0, // row 2
    0, 0, 0, // row 4, empty
    3, 0, 0, // the outer group
];

/// Version 1.1, one bitmap with the two strings, inside two groups; the inner one ends first.
pub fn bitmap_1_1() -> Vec<u8> {
    let mut hand = Hand::head("1.1").byte(0).chars("G").integer(2); // 0, 16, 17, 19
    hand = hand.chars("G").integer(1); // 23, 25
    hand = hand.chars("I").string("a").byte(1).string("bc").string("").transformation().byte(0); // 29
    hand = hand.byte(0); // the inner group's flow flag
    hand = hand.chars("I").string("d").byte(0).transformation().byte(0);
    hand.byte(0).0
}
