//! Sound field files of both marks, the smokes' parts in them, and byte strings that are hardly files.

use crate::content;
use reference::file::{encoded_as, TAIL};
use reference::rng::Rng;
use reference::{Mark, Shape};

/// "PLU2" mostly, "PLUM" often too (document 02, 2026-06).
pub fn any_mark(rng: &mut Rng) -> Mark {
    match rng.once_in(3) {
        true => Mark::Plum,
        false => Mark::Plu2,
    }
}

/// A sound file of a shape.
pub fn sound(rng: &mut Rng, mark: Mark, shape: Shape) -> Vec<u8> {
    let field = content::field(rng, shape);
    let wind = content::winds(rng, shape);
    encoded_as(mark, &field, &wind, shape)
}

/// A smoke's part in a file of the right layout; under "PLUM" its sum is its total, as far as a u32 holds it.
pub fn part(file: &[u8], mark: Mark, shape: Shape, smoke: usize) -> Vec<u32> {
    let start = shape.section_offset(mark, smoke);
    let section = &file[start..start + shape.section_len(mark)];
    let number = |bytes: &[u8]| u32::from_le_bytes([bytes[0], bytes[1], bytes[2], bytes[3]]);
    let numbers: Vec<u32> = section.chunks_exact(4).map(number).collect();
    match mark {
        Mark::Plum => content::with_total(numbers),
        Mark::Plu2 => numbers,
    }
}

/// Lays a part in its section; a "PLUM" file takes no total.
pub fn lay_part(file: &mut [u8], mark: Mark, shape: Shape, smoke: usize, part: &[u32]) {
    let start = shape.section_offset(mark, smoke);
    let section = &mut file[start..start + shape.section_len(mark)];
    for (bytes, number) in section.chunks_exact_mut(4).zip(part) {
        bytes.copy_from_slice(&number.to_le_bytes());
    }
}

pub fn bytes(rng: &mut Rng, count: usize) -> Vec<u8> {
    (0..count).map(|_| rng.draw() as u8).collect()
}

/// Bytes that end in a mark, and most often in a tail that gives a shape: of them the reader must look at more.
pub fn tailed(rng: &mut Rng, count: usize) -> Vec<u8> {
    let mut file = bytes(rng, count.max(TAIL));
    let mark = any_mark(rng);
    let tail = file.len() - TAIL;
    file[tail + 8..].copy_from_slice(mark.bytes());
    if !rng.once_in(8) {
        file[tail + 3] = 0;
    }
    if !rng.once_in(8) {
        let shape = content::shape(rng, 10);
        file[tail..tail + 3].copy_from_slice(&[shape.nx as u8, shape.ny as u8, shape.k as u8]);
        if rng.once_in(2) {
            let table = (shape.table_offset(mark) as u32).to_le_bytes();
            file[tail + 4..tail + 8].copy_from_slice(&table);
        }
    }
    file
}

/// A file of the right layout whose wind and smokes are any bytes.
pub fn wild_content(rng: &mut Rng, mark: Mark, shape: Shape) -> Vec<u8> {
    let mut file = sound(rng, mark, shape);
    let from = rng.pick(&[0, shape.section_offset(mark, 0)]);
    for byte in &mut file[from..shape.table_offset(mark)] {
        *byte = rng.draw() as u8;
    }
    file
}
