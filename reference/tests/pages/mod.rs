//! What tests of printed maps share.

use super::smokes::smoke;

/// What stands in a page before a call.
pub const OLD: u8 = 170;

/// An element that holds m, in all nine values and the remainder.
fn element(m: u32) -> [u32; 10] {
    let mut element = [m / 36; 10];
    element[9] = m % 36;
    element
}

/// A smoke of such elements, with its stored total (request 2026-06).
pub fn smoke_of(masses: &[u32]) -> Vec<u32> {
    let elements: Vec<u32> = masses.iter().flat_map(|&m| element(m)).collect();
    smoke(&elements)
}

/// Smokes of two elements each.
pub fn field_of(masses: &[u32]) -> Vec<u32> {
    masses.chunks(2).flat_map(smoke_of).collect()
}
