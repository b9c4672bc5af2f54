//! Damage to a sound file: each field of the tail, each offset, the length, and the content.

use crate::files;
use crate::unsound::spoil_part;
use reference::file::TAIL;
use reference::rng::Rng;
use reference::{Mark, Shape};

/// Damages a sound file of the mark and shape in one way, once in eight in two.
pub fn damage(rng: &mut Rng, file: &mut Vec<u8>, mark: Mark, shape: Shape) {
    // What a place means is only known while the layout is right: content first.
    if rng.once_in(8) {
        content_damage(rng, file, mark, shape);
    }
    match rng.below(18) {
        0..=5 => content_damage(rng, file, mark, shape),
        6..=8 => tail_damage(rng, file),
        9 | 10 => mark_damage(rng, file, mark),
        11 | 12 => table_damage(rng, file, mark, shape),
        13 => flips(rng, file),
        _ => length_damage(rng, file),
    }
}

fn put(file: &mut [u8], at: usize, bytes: &[u8]) {
    file[at..at + bytes.len()].copy_from_slice(bytes);
}

/// A wind out of range, or a fault in a smoke's part.
pub fn content_damage(rng: &mut Rng, file: &mut [u8], mark: Mark, shape: Shape) {
    if rng.once_in(4) {
        let bad: i16 = rng.pick(&[1025, -1025, i16::MAX, i16::MIN, 1024, -1024]);
        return put(file, 2 * rng.index(shape.wind_len()), &bad.to_le_bytes());
    }
    let (smoke, element) = (rng.index(shape.k), rng.index(shape.elements()));
    let other = files::part(file, mark, shape, rng.index(shape.k));
    let mut part = files::part(file, mark, shape, smoke);
    spoil_part(rng, &mut part, element, other[shape.elements_len()]);
    files::lay_part(file, mark, shape, smoke, &part);
}

fn tail_damage(rng: &mut Rng, file: &mut [u8]) {
    let tail = file.len() - TAIL;
    match rng.below(6) {
        0..=2 => {
            let at = rng.index(3);
            let beyond = if at == 2 { 9 } else { 65 };
            file[tail + at] = rng.pick(&[0, beyond, beyond - 1, 128, 255]);
        }
        3 => file[tail + rng.index(3)] = 1 + rng.index(8) as u8,
        // the same length, and still sound, where only the two sides change places
        4 => file.swap(tail, tail + 1),
        _ => file[tail + 3] = rng.pick(&[1, 2, 128, 255]),
    }
}

/// The other mark, whose layout the file hasn't, or one near to both.
fn mark_damage(rng: &mut Rng, file: &mut [u8], mark: Mark) {
    let tail = file.len() - TAIL;
    let bytes = &mut file[tail + 8..];
    let near = [
        *b"PLU1", *b"PLU3", *b"PLU\0", *b"PLUm", *b"PLM2", *b"2ULP", *b"MULP", *b"plum", *b"plu2",
    ];
    match rng.below(5) {
        0 => bytes[rng.index(4)] ^= 1 << rng.below(8),
        1 => bytes.swap(0, 1 + rng.index(3)),
        2 | 3 => bytes.copy_from_slice(&rng.pick(&near)),
        _ => bytes.copy_from_slice(other(mark).bytes()),
    }
}

fn other(mark: Mark) -> Mark {
    match mark {
        Mark::Plum => Mark::Plu2,
        Mark::Plu2 => Mark::Plum,
    }
}

/// An offset of the table, or the table's own in the tail.
fn table_damage(rng: &mut Rng, file: &mut [u8], mark: Mark, shape: Shape) {
    let tail = file.len() - TAIL;
    let table = shape.table_offset(mark);
    let entry = rng.index(shape.k + 1);
    let (at, smoke) = match (rng.once_in(2), entry) {
        (true, _) => (tail + 4, shape.k),
        (false, 0) => return wrong_offset(rng, file, table, [0, 0]),
        (false, _) => (table + 4 * entry, entry - 1),
    };
    let offsets = [mark, other(mark)].map(|mark| shape.section_offset(mark, smoke));
    wrong_offset(rng, file, at, offsets);
}

/// Lays another offset than the right one; the other mark has its own.
fn wrong_offset(rng: &mut Rng, file: &mut [u8], at: usize, [right, others]: [usize; 2]) {
    let right = right as u32;
    let wrong = match rng.below(8) {
        // some the same in the lower bytes
        0 | 1 => right.wrapping_add(1 << rng.pick(&[0, 8, 16, 24])),
        2 => right.wrapping_sub(4),
        3 => right.swap_bytes(),
        4 => rng.pick(&[0, u32::MAX, 1 << 31]),
        5 => file.len() as u32,
        6 => others as u32,
        _ => right ^ 1 << rng.below(32),
    };
    put(file, at, &wrong.to_le_bytes());
}

fn flips(rng: &mut Rng, file: &mut [u8]) {
    for _ in 0..1 + rng.below(4) {
        let at = rng.index(file.len());
        file[at] ^= 1 << rng.below(8);
    }
}

fn length_damage(rng: &mut Rng, file: &mut Vec<u8>) {
    let cut = 1 + rng.index(file.len());
    match rng.below(10) {
        0 => file.truncate(file.len() - 1),
        1 => file.truncate(file.len() - cut),
        2 => drop(file.drain(..cut)),
        3 => drop(file.drain(..1)),
        4 => drop(file.drain(..file.len() - rng.pick(&[1, 4, 11, 13]))),
        // the tail alone
        5 => drop(file.drain(..file.len() - TAIL)),
        6 => file.insert(rng.index(file.len()), 0),
        7 => file.push(0),
        // too long, with each part in its place from its own end of the file
        8 => file.insert(file.len() - TAIL, rng.draw() as u8),
        _ => {
            let mut longer = files::bytes(rng, cut);
            longer.append(file);
            *file = longer;
        }
    }
}
