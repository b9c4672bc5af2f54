//! The printed map of request 2026-03: "The briefing room wants each smoke on
//! paper." Quotations here are sentences of that request. Nothing is written
//! before the last check.

use crate::checks::{
    element_mass, long_enough, smoke_elements, smoke_exists, smoke_sound, smoke_total,
};
use crate::shape::{Shape, PAGE_COLUMNS, PAGE_WIDTH, PER_ELEMENT};
use std::fmt::{Display, Write};

/// Checks 2 4 6 7; the lent page must be long enough as well. The smoke is
/// summed as for a step, and 6 is also a stored total that differs (request
/// 2026-06). "It's a reading, and its number is the bytes written." Bytes of
/// `page` beyond them are surplus and left alone.
pub fn map(
    page: &mut [u8],
    field: &[u32],
    nx: usize,
    ny: usize,
    k: usize,
    smoke: usize,
) -> Result<u64, u8> {
    let shape = Shape::checked(nx, ny, k)?;
    long_enough(field, shape.field_len())?;
    long_enough(page, shape.page_len())?;
    smoke_sound(field, shape, smoke)?;
    smoke_exists(shape, smoke)?;
    let text = page_text(field, shape, smoke);
    page[..text.len()].copy_from_slice(text.as_bytes());
    Ok(text.len() as u64)
}

/// "The page goes in blocks of seven columns of elements, west first."
fn page_text(field: &[u32], shape: Shape, smoke: usize) -> String {
    let elements = smoke_elements(field, shape, smoke).chunks_exact(PER_ELEMENT);
    let masses: Vec<u64> = elements.map(element_mass).collect();
    let mut text = String::with_capacity(shape.page_len());
    for west in (0..shape.nx).step_by(PAGE_COLUMNS) {
        text.push_str(&block(&masses, shape, west));
    }
    // "After the last block, one line has "sum" and the total right-aligned
    // in 70."
    let total = smoke_total(field, shape, smoke);
    writeln!(text, "sum{total:>70}").expect("a String takes all");
    text
}

/// The block whose first column is `west`. "A block's first line has three
/// blanks, then each i, right-aligned in ten. Then comes one line per j,
/// northmost first". The i goes on from block to block.
fn block(masses: &[u64], shape: Shape, west: usize) -> String {
    let columns = west..shape.nx.min(west + PAGE_COLUMNS);
    let mut text = line("", columns.clone());
    for j in (0..shape.ny).rev() {
        let row = columns.clone().map(|i| masses[shape.element(i, j)]);
        text.push_str(&line(j, row));
    }
    text
}

/// "j right-aligned in three, each M in ten, blanks for missing columns", and
/// so in a block's first line: "Each line is exactly 73 characters and a
/// newline."
fn line<T: Display>(head: impl Display, numbers: impl Iterator<Item = T>) -> String {
    let mut line = format!("{head:>3}");
    for number in numbers {
        write!(line, "{number:>10}").expect("a String takes all");
    }
    format!("{line:<PAGE_WIDTH$}\n")
}
