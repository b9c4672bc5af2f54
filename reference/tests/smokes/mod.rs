//! Smokes of given elements, with the stored totals of request 2026-06.

const WEIGHTS: [u64; 10] = [1, 4, 1, 4, 16, 4, 1, 4, 1, 1];

/// What elements hold together, by ten numbers each.
fn sum_of(elements: &[u32]) -> u64 {
    let held =
        |element: &[u32]| -> u64 { (0..10).map(|n| WEIGHTS[n] * u64::from(element[n])).sum() };
    elements.chunks(10).map(held).sum()
}

/// A smoke's part of the field: its elements, then their sum.
pub fn smoke(elements: &[u32]) -> Vec<u32> {
    let total = u32::try_from(sum_of(elements)).unwrap_or(u32::MAX);
    [elements, &[total]].concat()
}
