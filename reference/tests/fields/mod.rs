//! Random fields on many shapes.

use super::random::SHAPES;
use reference::random_file::sound_file;
use reference::{read_file, Shape};

/// Many shapes in turn, each with a seed.
pub fn seeded(count: usize) -> impl Iterator<Item = (u64, Shape)> {
    let shape = |(nx, ny, k)| Shape { nx, ny, k };
    let shapes = SHAPES.into_iter().cycle().map(shape);
    (0..count as u64).zip(shapes)
}

/// The field and wind of a random file.
pub fn buffers(seed: u64, shape: Shape) -> (Vec<u32>, Vec<i16>) {
    let Shape { nx, ny, k } = shape;
    let file = sound_file(seed, nx, ny, k).unwrap();
    let (mut field, mut wind) = (vec![0; shape.field_len()], vec![0; shape.wind_len()]);
    assert_eq!(read_file(&file, &mut field, &mut wind), Ok(shape));
    (field, wind)
}
