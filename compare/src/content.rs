//! Random winds and random parts of one smoke, within the ranges of documents 01 and 02.

use reference::checks::{element_mass, node_weight};
use reference::rng::Rng;
use reference::shape::{LIMIT, NODES, PER_ELEMENT};
use reference::Shape;

/// Winds of a shape: mixed, all one way, weak, or still.
pub fn winds(rng: &mut Rng, shape: Shape) -> Vec<i16> {
    let style = rng.below(8);
    let one = rng.wind();
    let mut wind = || match style {
        0 => one,
        1 => rng.below(5) as i16 - 2,
        2 => rng.pick(&[-1024, 1024]),
        3 => rng.below(1025) as i16,
        4 if rng.once_in(3) => 0,
        _ => rng.wind(),
    };
    (0..shape.wind_len()).map(|_| wind()).collect()
}

/// The numbers of every smoke of a shape.
pub fn field(rng: &mut Rng, shape: Shape) -> Vec<u32> {
    (0..shape.k).flat_map(|_| smoke(rng, shape)).collect()
}

/// The largest value that may stand at every node without passing the limit, whatever the remainders.
fn even_limit(shape: Shape) -> u64 {
    (LIMIT / shape.elements() as u64 - 35) / 36
}

/// One smoke's part: its elements, then its stored total (document 02, 2026-06).
pub fn smoke(rng: &mut Rng, shape: Shape) -> Vec<u32> {
    with_total(elements(rng, shape))
}

/// Elements of ten numbers, and their sum behind them.
pub fn with_total(mut elements: Vec<u32>) -> Vec<u32> {
    elements.push(0);
    store_sum(&mut elements);
    elements
}

/// One smoke's elements alone: empty, nearly empty and fuller ones beside each other, old remainders, single full nodes; once in
/// six the sum is exactly the limit.
pub fn elements(rng: &mut Rng, shape: Shape) -> Vec<u32> {
    if rng.once_in(8) {
        return one_node(rng, shape);
    }
    let most = even_limit(shape);
    let full = rng.pick(&[1, 3, 40, 500, most]).min(most);
    let mut numbers = Vec::with_capacity(shape.smoke_len());
    for _ in 0..shape.elements() {
        numbers.extend(element(rng, full));
    }
    let mut left = LIMIT - sum(&numbers);
    for _ in 0..rng.below(4) {
        let at = PER_ELEMENT * rng.index(shape.elements()) + rng.index(NODES);
        let weight = node_weight(at % PER_ELEMENT) as u64;
        let spike = rng.below(left / weight / 2 + 1);
        numbers[at] += spike as u32;
        left -= weight * spike;
    }
    if rng.once_in(6) {
        fill_up(rng, &mut numbers, left);
    }
    numbers
}

/// All that a smoke may hold at one node: with strong winds the numbers within a step are as large as they can be.
fn one_node(rng: &mut Rng, shape: Shape) -> Vec<u32> {
    let mut part = vec![0; shape.elements_len()];
    let start = PER_ELEMENT * rng.index(shape.elements());
    let node = rng.index(NODES);
    let weight = node_weight(node) as u64;
    part[start + node] = (LIMIT / weight) as u32;
    part[start + NODES] = (LIMIT % weight) as u32;
    part
}

/// One element: still empty but for its remainder, nearly empty, level, one node alone, or any values up to `full`.
fn element(rng: &mut Rng, full: u64) -> [u32; PER_ELEMENT] {
    let mut element = [0; PER_ELEMENT];
    let kind = rng.below(6);
    let level = rng.below(full + 1) as u32;
    for value in &mut element[..NODES] {
        *value = match kind {
            0 => 0,
            1 => rng.below(2.min(full) + 1) as u32,
            2 => level,
            3 if rng.once_in(9) => level,
            3 => 0,
            _ => rng.below(full + 1) as u32,
        };
    }
    let any = rng.below(36) as u32;
    element[NODES] = rng.pick(&[0, 1, 35, any]);
    element
}

/// Adds `more` at a corner, whose weight is 1.
pub fn fill_up(rng: &mut Rng, elements: &mut [u32], more: u64) {
    let corner = rng.pick(&[0, 2, 6, 8]);
    let at = PER_ELEMENT * rng.index(elements.len() / PER_ELEMENT) + corner;
    elements[at] += more as u32;
}

/// The sum of M over elements of ten numbers.
pub fn sum(elements: &[u32]) -> u64 {
    elements.chunks_exact(PER_ELEMENT).map(element_mass).sum()
}

/// A part's stored total becomes its sum, or the most that a u32 holds.
pub fn store_sum(part: &mut [u32]) {
    let (total, elements) = part.split_last_mut().expect("a part ends with its total");
    *total = u32::try_from(sum(elements)).unwrap_or(u32::MAX);
}

/// A shape, mostly small; once in `rare` any, up to 64 by 64 with eight smokes.
pub fn shape(rng: &mut Rng, rare: u64) -> Shape {
    let side = |rng: &mut Rng, most: usize| 1 + rng.index(most);
    let (most, smokes) = match rng.below(rare) {
        0 => return large_shape(rng),
        1..=6 => (9, 8),
        _ => (rng.pick(&[1, 2, 3, 4]), 3),
    };
    let (nx, ny, k) = (side(rng, most), side(rng, most), side(rng, smokes));
    Shape { nx, ny, k }
}

fn large_shape(rng: &mut Rng) -> Shape {
    let side = |rng: &mut Rng| match rng.below(3) {
        0 => 64,
        1 => 1 + rng.index(3),
        _ => 1 + rng.index(64),
    };
    let (nx, ny) = (side(rng), side(rng));
    Shape {
        nx,
        ny,
        k: 1 + rng.index(8),
    }
}
