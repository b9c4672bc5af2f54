//! The field file: "Wind section, then one section per smoke (ten u32 an
//! element), then a table of K + 1 u32 offsets (wind, then each smoke),
//! then the 12-byte tail". Little-endian. Document 02, 2026-06: "The file's
//! smoke section ends with the total and the mark becomes "PLU2"."

use crate::checks::{field_sound, long_enough, smoke_part, smoke_total, winds_in_range};
use crate::checks::{BAD_LAYOUT, BAD_TAIL};
use crate::shape::Shape;

/// "a fixed byte string compared by the reader and written by the writer". The
/// two marks have layouts of their own.
#[derive(Clone, Copy, Debug, PartialEq, Eq)]
pub enum Mark {
    /// Sections without totals. Document 02, 2026-06: ""PLUM" is still read".
    Plum,
    /// Sections that end with the total.
    Plu2,
}

pub const TAIL: usize = 12;

impl Mark {
    pub fn bytes(self) -> &'static [u8; 4] {
        match self {
            Mark::Plum => b"PLUM",
            Mark::Plu2 => b"PLU2",
        }
    }

    pub fn of(bytes: &[u8]) -> Option<Mark> {
        let marks = [Mark::Plum, Mark::Plu2];
        marks.into_iter().find(|mark| mark.bytes() == bytes)
    }
}

fn u32_at(bytes: &[u8], at: usize) -> u32 {
    u32::from_le_bytes([bytes[at], bytes[at + 1], bytes[at + 2], bytes[at + 3]])
}

/// Checks 1 2 3: "The reader starts at the end."
pub fn file_shape(file: &[u8]) -> Result<(Mark, Shape), u8> {
    if file.len() < TAIL {
        return Err(BAD_TAIL);
    }
    let tail = &file[file.len() - TAIL..];
    let mark = Mark::of(&tail[8..]).ok_or(BAD_TAIL)?;
    if tail[3] != 0 {
        return Err(BAD_TAIL);
    }
    let shape = Shape::checked(tail[0].into(), tail[1].into(), tail[2].into())?;
    let table_offset = shape.table_offset(mark);
    // The length first: only then do the table and sections lie in the file.
    if file.len() != shape.file_len(mark) || u32_at(tail, 4) as usize != table_offset {
        return Err(BAD_LAYOUT);
    }
    let table = &file[table_offset..];
    if (0..=shape.k).any(|entry| u32_at(table, 4 * entry) as usize != offset(mark, shape, entry)) {
        return Err(BAD_LAYOUT);
    }
    Ok((mark, shape))
}

/// What the table's entry must hold: "wind, then each smoke".
fn offset(mark: Mark, shape: Shape, entry: usize) -> usize {
    match entry {
        0 => 0,
        _ => shape.section_offset(mark, entry - 1),
    }
}

fn decoded_winds(section: &[u8]) -> Vec<i16> {
    let pair = |bytes: &[u8]| i16::from_le_bytes([bytes[0], bytes[1]]);
    section.chunks_exact(2).map(pair).collect()
}

fn decoded_numbers(section: &[u8]) -> Vec<u32> {
    let number = |bytes: &[u8]| u32_at(bytes, 0);
    section.chunks_exact(4).map(number).collect()
}

/// One smoke's numbers with its total, from its section.
fn decoded_smoke(mark: Mark, shape: Shape, section: &[u8]) -> Vec<u32> {
    let mut part = decoded_numbers(section);
    if mark == Mark::Plum {
        part.push(0);
        part[shape.elements_len()] = worked_out(&part, shape);
    }
    part
}

/// Document 02, 2026-06: ""PLUM" is still read, its totals worked out". A sum
/// that no u32 holds is far above the limit and refused for that, whatever is
/// put in its place.
fn worked_out(part: &[u32], shape: Shape) -> u32 {
    u32::try_from(smoke_total(part, shape, 0)).unwrap_or(u32::MAX)
}

/// Checks 1 2 3 4 5 6, all before a byte is written. Answers the shape.
pub fn read_file(file: &[u8], field: &mut [u32], wind: &mut [i16]) -> Result<Shape, u8> {
    let (mark, shape) = file_shape(file)?;
    long_enough(field, shape.field_len())?;
    long_enough(wind, shape.wind_len())?;
    let start = |smoke| shape.section_offset(mark, smoke);
    let winds = decoded_winds(&file[..start(0)]);
    let mut numbers = Vec::with_capacity(shape.field_len());
    for smoke in 0..shape.k {
        let section = &file[start(smoke)..start(smoke + 1)];
        numbers.extend(decoded_smoke(mark, shape, section));
    }
    winds_in_range(&winds, shape)?;
    field_sound(&numbers, shape)?;
    field[..shape.field_len()].copy_from_slice(&numbers);
    wind[..shape.wind_len()].copy_from_slice(&winds);
    Ok(shape)
}

/// The bytes of a file as it is written, without any check; the slices must be
/// long enough.
pub fn encoded(field: &[u32], wind: &[i16], shape: Shape) -> Vec<u8> {
    encoded_as(Mark::Plu2, field, wind, shape)
}

/// The bytes under either mark; a "PLUM" file leaves the totals out.
pub fn encoded_as(mark: Mark, field: &[u32], wind: &[i16], shape: Shape) -> Vec<u8> {
    let mut bytes = Vec::with_capacity(shape.file_len(mark));
    for c in &wind[..shape.wind_len()] {
        bytes.extend(c.to_le_bytes());
    }
    for smoke in 0..shape.k {
        let numbers = smoke_part(field, shape, smoke);
        for number in &numbers[..shape.section_len(mark) / 4] {
            bytes.extend(number.to_le_bytes());
        }
    }
    for entry in 0..=shape.k {
        bytes.extend((offset(mark, shape, entry) as u32).to_le_bytes());
    }
    bytes.extend([shape.nx as u8, shape.ny as u8, shape.k as u8, 0]);
    bytes.extend((shape.table_offset(mark) as u32).to_le_bytes());
    bytes.extend(mark.bytes());
    bytes
}

/// Checks 2 4 5 6. Answers "the file's length in bytes"; bytes of `out`
/// beyond it are surplus and left alone. Only "PLU2" is written.
pub fn write_file(
    field: &[u32],
    wind: &[i16],
    out: &mut [u8],
    nx: usize,
    ny: usize,
    k: usize,
) -> Result<usize, u8> {
    let shape = Shape::checked(nx, ny, k)?;
    long_enough(field, shape.field_len())?;
    long_enough(wind, shape.wind_len())?;
    long_enough(out, shape.file_len(Mark::Plu2))?;
    winds_in_range(wind, shape)?;
    field_sound(field, shape)?;
    let bytes = encoded(field, wind, shape);
    out[..bytes.len()].copy_from_slice(&bytes);
    Ok(bytes.len())
}
