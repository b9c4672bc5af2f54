//! Random field files under either mark, sound or damaged in a named way.

use crate::checks::{element_mass, node_weight, smoke_total};
use crate::file::{encoded_as, Mark, TAIL};
use crate::rng::Rng;
use crate::shape::{Shape, LIMIT, NODES, PER_ELEMENT};

/// The kinds of damage that files of both marks may have.
pub const KINDS: [&str; 10] = [
    "mark",
    "other_mark",
    "offset",
    "truncated",
    "fourth",
    "shape",
    "wind",
    "remainder",
    "total",
    "wrapped",
];

/// Those of a stored total, which only a "PLU2" file has (request 2026-06).
pub const STORED_KINDS: [&str; 3] = ["stored", "stored_large", "stored_other"];

/// A sound "PLU2" file of the shape; the error is refusal 2.
pub fn sound_file(seed: u64, nx: usize, ny: usize, k: usize) -> Result<Vec<u8>, u8> {
    sound_file_as(Mark::Plu2, seed, nx, ny, k)
}

/// A sound file under the mark. Both marks have the same content.
pub fn sound_file_as(mark: Mark, seed: u64, nx: usize, ny: usize, k: usize) -> Result<Vec<u8>, u8> {
    let shape = Shape::checked(nx, ny, k)?;
    let mut rng = Rng::new(seed);
    let wind: Vec<i16> = (0..shape.wind_len()).map(|_| rng.wind()).collect();
    let mut field = Vec::with_capacity(shape.field_len());
    for _ in 0..k {
        field.extend(random_smoke(&mut rng, shape));
    }
    Ok(encoded_as(mark, &field, &wind, shape))
}

/// One smoke's numbers: near-empty elements, some fuller, a few spikes; then
/// its total.
fn random_smoke(rng: &mut Rng, shape: Shape) -> Vec<u32> {
    let mut part = vec![0; shape.elements_len()];
    for element in part.chunks_exact_mut(PER_ELEMENT) {
        let high = rng.pick(&[1, 1, 1, 2, 4, 40, 500]);
        for value in &mut element[..NODES] {
            *value = rng.below(high) as u32;
        }
        element[NODES] = rng.below(36) as u32;
    }
    let mut left = LIMIT - part.chunks(PER_ELEMENT).map(element_mass).sum::<u64>();
    for _ in 0..rng.below(6) {
        let at = rng.index(shape.elements()) * PER_ELEMENT + rng.index(NODES);
        let weight = node_weight(at % PER_ELEMENT) as u64;
        let spike = rng.below(left / weight / 2 + 1);
        part[at] += spike as u32;
        left -= weight * spike;
    }
    if rng.once_in(4) {
        // A total of exactly the limit; the first node has weight 1.
        part[0] += left as u32;
    }
    let total: u64 = part.chunks(PER_ELEMENT).map(element_mass).sum();
    part.push(total as u32);
    part
}

/// Damages a sound file; the seed chooses among the kind's variants.
pub fn damaged(file: &mut Vec<u8>, shape: Shape, kind: &str, seed: u64) -> Result<(), String> {
    let mut rng = Rng::new(!seed);
    let tail = file.len() - TAIL;
    let mark = Mark::of(&file[tail + 8..]).ok_or("the file isn't sound")?;
    match kind {
        "mark" => {
            let at = tail + 8 + rng.index(4);
            file[at] ^= 1 << rng.below(8);
        }
        "other_mark" => put(file, tail + 8, other(mark).bytes()),
        "fourth" => file[tail + 3] = 1 + rng.below(255) as u8,
        "shape" => {
            let at = rng.index(3);
            let beyond = if at == 2 { 9 } else { 65 };
            file[tail + at] = rng.pick(&[0, beyond, 255]);
        }
        "offset" => wrong_layout(mark, file, shape, &mut rng),
        "truncated" => truncated(file, &mut rng),
        "wind" => {
            let bad: i16 = rng.pick(&[1025, -1025, i16::MAX, i16::MIN]);
            put(file, 2 * rng.index(shape.wind_len()), &bad.to_le_bytes());
        }
        "remainder" | "total" | "wrapped" => unsound(mark, file, shape, kind, &mut rng),
        _ if mark == Mark::Plu2 && STORED_KINDS.contains(&kind) => {
            unsound(mark, file, shape, kind, &mut rng)
        }
        _ => return Err(no_kind(mark, kind)),
    }
    Ok(())
}

fn no_kind(mark: Mark, kind: &str) -> String {
    let kinds = match mark {
        Mark::Plum => KINDS.to_vec(),
        Mark::Plu2 => [&KINDS[..], &STORED_KINDS].concat(),
    };
    format!("no kind {kind:?}; there are {}", kinds.join(", "))
}

fn other(mark: Mark) -> Mark {
    match mark {
        Mark::Plum => Mark::Plu2,
        Mark::Plu2 => Mark::Plum,
    }
}

fn put(file: &mut [u8], at: usize, bytes: &[u8]) {
    file[at..at + bytes.len()].copy_from_slice(bytes);
}

/// Refusal 3: a wrong table entry, a wrong table offset, another good
/// shape, or a byte too many at the front.
fn wrong_layout(mark: Mark, file: &mut Vec<u8>, shape: Shape, rng: &mut Rng) {
    let tail = file.len() - TAIL;
    let bit = 1 << rng.below(8);
    match rng.below(5) {
        0 | 1 => file[shape.table_offset(mark) + rng.index(4 * (shape.k + 1))] ^= bit,
        2 => file[tail + 4 + rng.index(4)] ^= bit,
        3 => {
            file[tail] = if shape.nx == 64 {
                63
            } else {
                shape.nx as u8 + 1
            }
        }
        _ => file.insert(0, 0),
    }
}

/// Refusal 1 where the end is cut off, 3 where the front is; at times
/// fewer than 12 bytes of the end remain.
fn truncated(file: &mut Vec<u8>, rng: &mut Rng) {
    let cut = 1 + rng.index(file.len() - TAIL);
    match rng.below(4) {
        0 => file.truncate(file.len() - 1),
        1 => file.truncate(file.len() - cut),
        2 => drop(file.drain(..cut)),
        _ => drop(file.drain(..file.len() - rng.index(TAIL))),
    }
}

/// Refusal 6: takes one smoke's numbers out of its section, damages them and
/// lays them back.
fn unsound(mark: Mark, file: &mut [u8], shape: Shape, kind: &str, rng: &mut Rng) {
    let start = shape.section_offset(mark, rng.index(shape.k));
    let section = &file[start..start + shape.section_len(mark)];
    let number = |bytes: &[u8]| u32::from_le_bytes(bytes.try_into().unwrap());
    let mut part: Vec<u32> = section.chunks_exact(4).map(number).collect();
    part.resize(shape.smoke_len(), 0);
    let sum = smoke_total(&part, shape, 0);
    match kind {
        "remainder" => large_remainder(&mut part, shape, rng),
        "total" => too_full(&mut part, shape, sum, rng),
        // Four times 2^30 more: the sum's low 32 bits stay as they were.
        "wrapped" => part[1] += 1 << 30,
        "stored" => part[shape.elements_len()] = beside(sum, rng),
        "stored_large" => part[shape.elements_len()] = rng.pick(&[LIMIT as u32 + 1, u32::MAX]),
        _ => part[shape.elements_len()] = another(&part, shape, sum, rng),
    }
    let kept = part[..section.len() / 4].iter();
    let bytes: Vec<u8> = kept.flat_map(|number| number.to_le_bytes()).collect();
    put(file, start, &bytes);
}

/// The stored total follows the sum, so that only the named damage shows.
fn restore(part: &mut [u32], shape: Shape) {
    let sum = smoke_total(part, shape, 0);
    part[shape.elements_len()] = u32::try_from(sum).unwrap_or(u32::MAX);
}

/// By a remainder above 35.
fn large_remainder(part: &mut [u32], shape: Shape, rng: &mut Rng) {
    let at = rng.index(shape.elements()) * PER_ELEMENT + NODES;
    part[at] = rng.pick(&[36, 36, 255, u32::MAX]);
    restore(part, shape);
}

/// By the sum: one above the limit, the highest that a stored total can equal,
/// or as high as can be.
fn too_full(part: &mut [u32], shape: Shape, sum: u64, rng: &mut Rng) {
    match rng.below(6) {
        0 => {
            for element in part.chunks_exact_mut(PER_ELEMENT) {
                element[..NODES].fill(u32::MAX);
            }
        }
        // The first node has weight 1.
        1 | 2 => part[0] += u32::MAX - sum as u32,
        _ => part[0] += (LIMIT - sum) as u32 + 1,
    }
    restore(part, shape);
}

/// One beside the sum, and within the limit.
fn beside(sum: u64, rng: &mut Rng) -> u32 {
    let sum = sum as u32;
    match sum {
        0 => 1,
        _ if u64::from(sum) == LIMIT || rng.once_in(2) => sum - 1,
        _ => sum + 1,
    }
}

/// Any number within the limit but the sum: often 0 or an element's M.
fn another(part: &[u32], shape: Shape, sum: u64, rng: &mut Rng) -> u32 {
    let at = PER_ELEMENT * rng.index(shape.elements());
    let held = element_mass(&part[at..at + PER_ELEMENT]);
    let any = rng.below(LIMIT + 1);
    match rng.pick(&[0, held, LIMIT, any]) {
        number if number == sum => beside(sum, rng),
        number => number as u32,
    }
}
