//! The random lists that several tests run, and the shapes that they run on.

use reference::generator;
use reference::lists::Call;

pub const SHAPES: [(usize, usize, usize); 8] = [
    (1, 1, 1),
    (1, 2, 2),
    (2, 1, 3),
    (2, 2, 8),
    (1, 5, 1),
    (5, 1, 2),
    (3, 4, 2),
    (7, 6, 3),
];

/// The calls of a random list.
pub fn calls(seed: u64, (nx, ny, k): (usize, usize, usize)) -> Vec<Call> {
    let script = generator::script(seed, nx, ny, k, 300).unwrap();
    let lines = script.lines().skip(1);
    lines.map(|line| line.parse().unwrap()).collect()
}
