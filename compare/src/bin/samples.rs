//! Writes the sample files and what the reference program prints for each. Usage: samples FOLDER

use compare::content::with_total;
use reference::file::{encoded, encoded_as};
use reference::shape::{NODES, PER_ELEMENT};
use reference::{map_program, program, Mark, Shape};
use std::fs;
use std::io;
use std::path::Path;

/// Document 01's case F: one element of nine values 7 and remainder 5, east wind 1024. It stays a "PLUM" file.
fn case_f() -> Vec<u8> {
    let shape = Shape { nx: 1, ny: 1, k: 1 };
    let part = with_total(vec![7, 7, 7, 7, 7, 7, 7, 7, 7, 5]);
    encoded_as(Mark::Plum, &part, &[1024, 0], shape)
}

/// One element and four smokes, each even, of values 1, 3, 5 and 7, so that no stage changes them: a face amount is C · 36v / 4096, and
/// with C = ±512 it is ±4.5, ±13.5, ±22.5 and ±31.5 before it is rounded (document 02, 2026-02).
fn halves() -> Vec<u8> {
    let shape = Shape { nx: 1, ny: 1, k: 4 };
    let even = |v| with_total(vec![v, v, v, v, v, v, v, v, v, 0]);
    encoded(
        &[even(1), even(3), even(5), even(7)].concat(),
        &[512, -512],
        shape,
    )
}

/// One plume on 16 by 8 elements in a shear wind: the east wind grows with j, the north wind is weak and the same everywhere.
fn shear_16x8() -> Vec<u8> {
    let (nx, ny) = (16, 8);
    let shape = Shape { nx, ny, k: 1 };
    let east = (0..nx * ny).map(|e| 120 * (e / nx) as i16);
    let wind: Vec<i16> = east.chain((0..nx * ny).map(|_| 40)).collect();
    let mut elements = Vec::new();
    for e in 0..nx * ny {
        let (west, south) = (2 * (e % nx) as i64, 2 * (e / nx) as i64);
        let values = (0..NODES as i64).map(|n| hill(west + n % 3, south + n / 3));
        elements.extend(values.chain([0]));
    }
    encoded(&with_total(elements), &wind, shape)
}

/// A round hill about node (9, 7) of the grid of all nodes, 0 where it ends.
fn hill(x: i64, y: i64) -> u32 {
    let square = (x - 9) * (x - 9) + (y - 7) * (y - 7);
    (4000 - 160 * square).max(0) as u32
}

/// Two smokes on 3 by 2 elements in strong winds. In the first one a nearly empty element, stage values below zero and an old
/// remainder meet on faces that are cut; the second one is a single full node.
fn two_smokes() -> Vec<u8> {
    let shape = Shape { nx: 3, ny: 2, k: 2 };
    let wind = [
        1024, -1024, 700, -300, 1024, 5, 1024, 250, 1024, 0, -1, 1024,
    ];
    let first: [[u32; PER_ELEMENT]; 6] = [
        [0, 0, 0, 0, 0, 0, 0, 0, 60, 3],
        [0, 3, 1, 0, 9, 0, 2, 0, 60, 35],
        [0, 0, 0, 0, 0, 0, 0, 0, 0, 17],
        [1, 1, 1, 1, 1, 1, 1, 1, 1, 0],
        [0, 0, 40, 0, 0, 20, 0, 0, 2, 34],
        [0, 0, 0, 0, 0, 0, 0, 0, 0, 0],
    ];
    let mut second = vec![0; shape.elements_len()];
    second[shape.place(0, 1, 1) + 8] = 1_000_000;
    let field = [with_total(first.concat()), with_total(second)].concat();
    encoded(&field, &wind, shape)
}

fn main() -> io::Result<()> {
    let folder = std::env::args().nth(1).expect("usage: samples FOLDER");
    let folder = Path::new(&folder);
    for (name, file) in [
        ("case_f", case_f()),
        ("halves", halves()),
        ("shear_16x8", shear_16x8()),
        ("two_smokes", two_smokes()),
    ] {
        fs::write(folder.join(format!("{name}.plume")), &file)?;
        fs::write(folder.join(format!("{name}.txt")), program::output(&file))?;
        let pages = map_program::output(&file);
        fs::write(folder.join(format!("{name}.pages.txt")), pages)?;
        println!("{name}: {} bytes", file.len());
    }
    Ok(())
}
