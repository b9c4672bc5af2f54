//! The program: "reads one file from standard input, steps each smoke once
//! in order and prints".

use crate::calls::total;
use crate::checks::BAD_LAYOUT;
use crate::file::read_file;
use crate::shape::Shape;
use crate::step::step;
use std::fmt::Write;

/// "It lends buffers for exactly 128 elements and eight smokes"
const LARGEST: Shape = Shape {
    nx: 64,
    ny: 2,
    k: 8,
};

/// A file's shape, and the lent field and wind that it was read into.
pub struct Taken {
    pub shape: Shape,
    pub field: Vec<u32>,
    pub wind: Vec<i16>,
}

/// What the program prints for the file.
pub fn output(file: &[u8]) -> String {
    printed(stepped(file))
}

/// A refusal stands alone, so nothing printed before it is kept.
pub fn printed(text: Result<String, u8>) -> String {
    match text {
        Ok(text) => text,
        Err(number) => format!("refused {number}\n"),
    }
}

/// Reads the file into lent buffers.
pub fn taken(file: &[u8]) -> Result<Taken, u8> {
    // "Over 65,536 bytes it prints "refused 3", before any other check."
    if file.len() > 65_536 {
        return Err(BAD_LAYOUT);
    }
    let mut field = vec![0; LARGEST.field_len()];
    let mut wind = vec![0; LARGEST.wind_len()];
    let shape = read_file(file, &mut field, &mut wind)?;
    Ok(Taken { shape, field, wind })
}

fn stepped(file: &[u8]) -> Result<String, u8> {
    let Taken {
        shape,
        mut field,
        wind,
    } = taken(file)?;
    let mut report = vec![0; LARGEST.wind_len()];
    let mut work = vec![0; LARGEST.work_len()];
    let Shape { nx, ny, k } = shape;
    let mut text = format!("grid {nx} {ny} {k}\n");
    for smoke in 0..k {
        let clipped = step(&mut field, &wind, &mut report, &mut work, nx, ny, k, smoke)?;
        face_lines(&mut text, shape, smoke, &report);
        let sum = total(&field, nx, ny, k, smoke)?;
        // Document 02, 2026-04: "The program's total line gets it as a last
        // field".
        writeln!(text, "total {smoke} {sum} {clipped}").expect("a String takes all");
    }
    Ok(text)
}

/// "smoke, direction, i, j, G* (all east faces first, j outer)"
fn face_lines(text: &mut String, shape: Shape, smoke: usize, report: &[i32]) {
    for (way, before) in [("east", 0), ("north", shape.elements())] {
        for j in 0..shape.ny {
            for i in 0..shape.nx {
                let moved = report[before + shape.element(i, j)];
                writeln!(text, "face {smoke} {way} {i} {j} {moved}").expect("a String takes all");
            }
        }
    }
}
