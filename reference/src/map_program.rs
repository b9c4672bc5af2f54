//! The map program: reads one file from standard input, as the program does,
//! and prints the pages of all smokes in order, one after the other (request
//! 2026-03). No step is made.

use crate::map::map;
use crate::program::{printed, taken, Taken};
use crate::shape::Shape;

/// Of all grids of up to 128 elements the one with the longest page: one
/// block of 65 lines, then the sum. Two blocks have at most 16 rows.
const LONGEST: Shape = Shape {
    nx: 2,
    ny: 64,
    k: 8,
};

/// What the map program prints for the file.
pub fn output(file: &[u8]) -> String {
    printed(pages(file))
}

fn pages(file: &[u8]) -> Result<String, u8> {
    let Taken { shape, field, .. } = taken(file)?;
    let Shape { nx, ny, k } = shape;
    let mut text = String::new();
    for smoke in 0..k {
        let mut page = vec![0; LONGEST.page_len()];
        let written = map(&mut page, &field, nx, ny, k, smoke)? as usize;
        text.push_str(std::str::from_utf8(&page[..written]).expect("a page is plain text"));
    }
    Ok(text)
}
