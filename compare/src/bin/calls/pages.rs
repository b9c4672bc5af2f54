//! Pages at the edges: one column, a whole block, a column more, two whole blocks, and the largest grid, each with all that a smoke may hold
//! in one element.

use crate::buffers::{Buffer, Buffers};
use crate::call::{Call, Grid, Operation};
use reference::shape::{LIMIT, PAGE_WIDTH};
use reference::Shape;

pub const SHAPES: [(usize, usize); 7] =
    [(1, 1), (7, 1), (8, 1), (14, 1), (1, 64), (64, 1), (64, 64)];

/// The elements that hold the smoke in turn: the first, the last of the first block, the first of the second, and the last of all.
pub fn elements(nx: usize, ny: usize) -> Vec<usize> {
    let mut elements = vec![0, nx.min(7) - 1, 7.min(nx - 1), nx * ny - 1];
    elements.dedup();
    elements
}

/// The map of smoke 0 with 100,000,000 at one corner of an element, and so for its stored total. The page is lent just its length.
pub fn full_element(b: &mut Buffers, nx: usize, ny: usize, element: usize) -> Call {
    let shape = Shape { nx, ny, k: 1 };
    let mut field = vec![0; shape.field_len()];
    field[shape.place(0, element % nx, element / nx)] = LIMIT as u32;
    field[shape.total_place(0)] = LIMIT as u32;
    b.field = Buffer::new(&field, 0xDEAD_BEEF);
    b.page = Buffer::new(&vec![b'?'; shape.page_len()], 0x3C);
    Call {
        grid: Grid { nx, ny, smokes: 1 },
        operation: Operation::Map(0),
    }
}

/// Whether the page is whole lines, and its last one says the total.
pub fn check(b: &Buffers, length: i64) -> Result<(), String> {
    let page = b.page.lent();
    let whole = length == page.len() as i64 && page.chunks(PAGE_WIDTH + 1).all(is_line);
    let sum = format!("sum{LIMIT:>70}\n");
    match whole && page.ends_with(sum.as_bytes()) {
        true => Ok(()),
        false => Err(format!(
            "DIFFERENCE: a page of {length} bytes is not whole lines and a sum"
        )),
    }
}

fn is_line(line: &[u8]) -> bool {
    line.len() == PAGE_WIDTH + 1 && line.iter().position(|&byte| byte == b'\n') == Some(PAGE_WIDTH)
}
