//! Ways to change written automata.

use crate::layout::{Part, parts_of};
use crate::random::Random;

/// Changes some bytes in one to four of these ways. `other` is a second automaton of the same unit.
pub fn change(bytes: &mut Vec<u8>, other: &[u8], unit: u32, random: &mut Random) {
    let by_parts = random.below(4) > 0;
    for _ in 0..1 + random.below(4) {
        match parts_of(bytes, unit) {
            Some(parts) if by_parts => change_part(bytes, &parts, other, unit, random),
            _ => change_once(bytes, other, random),
        }
    }
}

/// Changes a field of a part, or takes the other automaton's part.
fn change_part(bytes: &mut Vec<u8>, parts: &[Part], other: &[u8], unit: u32, random: &mut Random) {
    let number = random.below(parts.len());
    let part = parts[number];
    if random.below(8) == 0 {
        take_part(bytes, part, number, other, unit);
    } else if part.count > 0 {
        change_entry(bytes, part, parts[0].count, random);
    }
}

/// Takes the other automaton's part of this number, with its count, if it has one.
fn take_part(bytes: &mut Vec<u8>, part: Part, number: usize, other: &[u8], unit: u32) {
    let Some(from) = parts_of(other, unit).and_then(|parts| parts.get(number).copied()) else { return };
    bytes.splice(part.start..part.end(), other[from.start..from.end()].iter().copied());
    if part.count != from.count {
        bytes[part.start - 4..part.start].copy_from_slice(&(from.count as u32).to_le_bytes());
    }
}

/// Changes one field of one entry, more often of an entry that differs from the one before it.
/// `elements` is the number of elements.
fn change_entry(bytes: &mut [u8], part: Part, elements: usize, random: &mut Random) {
    let mut entry = random.below(part.count);
    for _ in 0..64 {
        let at = part.start + entry * part.size;
        if entry == 0 || bytes[at..at + part.size] != bytes[at - part.size..at] {
            break;
        }
        entry = random.below(part.count);
    }
    let at = part.start + entry * part.size;
    if part.size == 1 {
        bytes[at] = match random.below(4) {
            0 => bytes[part.start + random.below(part.count)],
            1 => bytes[at] | 1 << random.below(8),
            2 => random.below(4) as u8,
            _ => bytes[at] ^ 1 << random.below(8),
        };
        return;
    }
    let field = random.below(part.size / 4) * 4;
    let donor = part.start + random.below(part.count) * part.size + field;
    let donated = bytes[donor..donor + 4].to_vec();
    let field = &mut bytes[at + field..at + field + 4];
    let now = u32::from_le_bytes([field[0], field[1], field[2], field[3]]);
    let set = match random.below(6) {
        0 => u32::from_le_bytes([donated[0], donated[1], donated[2], donated[3]]),
        1 => now ^ 1 << random.below(32),
        2 => now.wrapping_add(1),
        3 => now.wrapping_sub(1),
        4 => random.below(8) as u32,
        _ => random.below(elements.max(1)) as u32,
    };
    field.copy_from_slice(&set.to_le_bytes());
}

fn change_once(bytes: &mut Vec<u8>, other: &[u8], random: &mut Random) {
    if bytes.is_empty() {
        return;
    }
    match random.below(16) {
        0 => bytes.truncate(random.below(bytes.len())),
        1 => splice(bytes, other, random),
        2 => copy_within(bytes, random),
        3 => insert_or_remove(bytes, random),
        4..8 => flip(bytes, random),
        8..11 => set_byte(bytes, random),
        _ => set_field(bytes, random),
    }
}

/// A place; most of the elements, and what follows them, lie in the first and the last bytes.
fn place(bytes: &[u8], random: &mut Random) -> usize {
    match random.below(4) {
        0 => random.below(bytes.len()),
        1 => random.below(bytes.len().min(64)),
        2 => random.below(bytes.len().min(4096)),
        _ => bytes.len() - 1 - random.below(bytes.len().min(256)),
    }
}

fn flip(bytes: &mut [u8], random: &mut Random) {
    let at = place(bytes, random);
    bytes[at] ^= 1 << random.below(8);
}

fn set_byte(bytes: &mut [u8], random: &mut Random) {
    let at = place(bytes, random);
    bytes[at] = *random.pick(&[0, 1, 2, 3, 0x61, 0x62, 0x7f, 0x80, 0xfe, 0xff]);
}

/// Sets four bytes to a number at an edge, or to one near theirs.
fn set_field(bytes: &mut [u8], random: &mut Random) {
    let at = place(bytes, random);
    let Some(field) = bytes.get(at..at + 4).and_then(|field| field.try_into().ok()) else { return };
    let now = u32::from_le_bytes(field);
    let set = match random.below(4) {
        0 => now.wrapping_add(1),
        1 => now.wrapping_sub(1),
        2 => random.below(300) as u32,
        _ => *random.pick(&[0, 1, 2, 255, 256, 257, 0xff_ffff, 0x7fff_ffff, 0xffff_fffe, 0xffff_ffff]),
    };
    bytes[at..at + 4].copy_from_slice(&set.to_le_bytes());
}

/// Replaces bytes by as many of the other automaton.
fn splice(bytes: &mut [u8], other: &[u8], random: &mut Random) {
    let least = bytes.len().min(other.len());
    let from = random.below(least);
    let to = from + random.below((least - from).min(512));
    bytes[from..to].copy_from_slice(&other[from..to]);
}

/// Copies an element, or as many bytes, over others.
fn copy_within(bytes: &mut [u8], random: &mut Random) {
    let size = *random.pick(&[1, 4, 8, 12, 16]);
    if bytes.len() < 4 + size {
        return;
    }
    let from = 4 + place(bytes, random) / size * size;
    let to = 4 + place(bytes, random) / size * size;
    if from + size <= bytes.len() && to + size <= bytes.len() {
        bytes.copy_within(from..from + size, to);
    }
}

fn insert_or_remove(bytes: &mut Vec<u8>, random: &mut Random) {
    let at = place(bytes, random);
    if random.below(2) == 0 {
        bytes.remove(at);
    } else {
        bytes.insert(at, random.below(256) as u8);
    }
}
