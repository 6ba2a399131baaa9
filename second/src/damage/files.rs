//! Damage to files.

use super::faults::{faults, Fault, OTHER_TRUE};
use super::fields::Field;
use crate::layout::{three_chars, Kind};
use crate::random::Random;
use crate::version::{Version, LONGEST_FILE};

/// The file with another value in one field.
pub fn put(file: &[u8], field: &Field, value: u64) -> Vec<u8> {
    let mut file = file.to_vec();
    let width = field.kind.width();
    file[field.place..field.place + width].copy_from_slice(&value.to_be_bytes()[8 - width..]);
    file
}

/// The file with other bytes for true in about every second true flag: it holds the same drawing.
pub fn respelled(random: &mut Random, file: &[u8], fields: &[Field]) -> Vec<u8> {
    let mut file = file.to_vec();
    for field in fields.iter().filter(|field| is_true_flag(field)) {
        if random.flag() {
            file[field.place] = *random.pick(&OTHER_TRUE) as u8;
        }
    }
    file
}

pub fn is_true_flag(field: &Field) -> bool {
    matches!(field.kind, Kind::Flag { .. }) && field.value == 1
}

/// The file and one more run of bytes.
pub fn longer(file: &[u8], more: &[u8]) -> Vec<u8> {
    [file, more].concat()
}

/// So many random bytes, most of them small.
pub fn random_bytes(random: &mut Random, count: usize) -> Vec<u8> {
    (0..count).map(|_| if random.flag() { random.byte(3) } else { random.word() as u8 }).collect()
}

/// A file damaged in one way or another; its fields are those of the good file.
pub fn any(random: &mut Random, file: &[u8], fields: &[Field]) -> Vec<u8> {
    match random.below(17) {
        0 | 1 => file[..random.within(0, file.len())].to_vec(),
        2 => one_byte(random, file),
        3 => {
            let count = random.within(1, 8);
            longer(file, &random_bytes(random, count))
        }
        4 => spliced(random, file),
        5 => other_value(random, file, fields),
        6 => cut_after_fault(random, file, fields),
        7 => {
            let faulty = one_fault(random, file, fields);
            one_byte(random, &faulty)
        }
        8 => head_and_noise(random, file),
        9 => other_version(random, file, fields),
        10 => respelled(random, file, fields),
        _ => one_fault(random, file, fields),
    }
}

/// A value at fault in one field.
pub fn one_fault(random: &mut Random, file: &[u8], fields: &[Field]) -> Vec<u8> {
    match random_fault(random, fields) {
        Some((field, fault)) => put(file, &field, fault.value),
        None => file.to_vec(),
    }
}

/// A field that can be at fault, and a fault of it. Many fields are free chars, so look some times.
pub fn random_fault(random: &mut Random, fields: &[Field]) -> Option<(Field, Fault)> {
    for _ in 0..20 {
        let field = random.pick(fields);
        let faults = faults(field.kind, field.value);
        if !faults.is_empty() {
            return Some((*field, *random.pick(&faults)));
        }
    }
    None
}

pub fn one_byte(random: &mut Random, file: &[u8]) -> Vec<u8> {
    let mut file = file.to_vec();
    if !file.is_empty() {
        let place = random.below(file.len());
        file[place] = match random.below(4) {
            0 => file[place].wrapping_add(1),
            1 => file[place] ^ 1 << random.below(8),
            2 => random.byte(3),
            _ => random.word() as u8,
        };
    }
    file
}

/// Another small value in a field, at fault or not: other kinds, counts and flags.
fn other_value(random: &mut Random, file: &[u8], fields: &[Field]) -> Vec<u8> {
    let field = random.pick(fields);
    let allowed = field.kind.allowed();
    let value = match random.below(5) {
        0 if !allowed.is_empty() => u64::from(*random.pick(allowed)),
        1 => field.value.wrapping_add(1),
        2 => field.value.wrapping_sub(1),
        3 => random.below(4) as u64,
        _ => random.bits(),
    };
    put(file, field, value)
}

/// The file with the chars of some version.
fn other_version(random: &mut Random, file: &[u8], fields: &[Field]) -> Vec<u8> {
    let version = random.pick(&Version::ALL);
    match fields.iter().find(|field| field.kind == Kind::VersionChars) {
        Some(field) => put(file, field, three_chars(version.chars())),
        None => file.to_vec(),
    }
}

/// A fault, and the file cut near it: the earlier one of the two decides.
fn cut_after_fault(random: &mut Random, file: &[u8], fields: &[Field]) -> Vec<u8> {
    let Some((field, fault)) = random_fault(random, fields) else {
        return file.to_vec();
    };
    let mut file = put(file, &field, fault.value);
    file.truncate(field.place + random.within(0, 10));
    file
}

/// Some bytes taken out, put in twice, or exchanged for others.
fn spliced(random: &mut Random, file: &[u8]) -> Vec<u8> {
    let start = random.within(0, file.len());
    let end = file.len().min(start + random.within(0, 20));
    let middle = match random.below(3) {
        0 => Vec::new(),
        1 => [&file[start..end], &file[start..end]].concat(),
        _ => random_bytes(random, end - start),
    };
    [&file[..start], &middle, &file[end..]].concat()
}

/// A good beginning and then noise.
fn head_and_noise(random: &mut Random, file: &[u8]) -> Vec<u8> {
    let kept = random.within(0, file.len().min(60));
    let count = random.within(0, 200);
    longer(&file[..kept], &random_bytes(random, count))
}

/// A file that is longer than the limit; its beginning may be good.
pub fn too_long(random: &mut Random, file: &[u8]) -> Vec<u8> {
    let mut long = file.to_vec();
    let length = LONGEST_FILE + random.within(1, 40);
    long.resize(long.len().max(length), random.byte(1));
    long
}
