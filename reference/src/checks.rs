//! The refusals and the checks that several calls share.

use crate::shape::{Shape, LARGEST_REMAINDER, LIMIT, NODES, OMEGA, PER_ELEMENT, STRONGEST};

pub const BAD_TAIL: u8 = 1;
pub const BAD_SHAPE: u8 = 2;
pub const BAD_LAYOUT: u8 = 3;
pub const SHORT_SLICE: u8 = 4;
pub const BAD_WIND: u8 = 5;
pub const UNSOUND: u8 = 6;
pub const NO_SMOKE: u8 = 7;
pub const NO_ELEMENT: u8 = 8;
pub const OVER_LIMIT: u8 = 9;
pub const TOO_MUCH: u8 = 10;

// Request 2026-01.
pub const BAD_RECORD: u8 = 11;
pub const NOT_FINITE: u8 = 12;

/// Refusal 4 for one slice. "Surplus is left alone", so longer is good.
pub fn long_enough<T>(slice: &[T], need: usize) -> Result<(), u8> {
    if slice.len() < need {
        return Err(SHORT_SLICE);
    }
    Ok(())
}

pub fn wind_in_range(c: i16) -> Result<(), u8> {
    if (-STRONGEST..=STRONGEST).contains(&c) {
        Ok(())
    } else {
        Err(BAD_WIND)
    }
}

/// Refusal 5, "any stored one"; numbers beyond the shape's are surplus.
pub fn winds_in_range(wind: &[i16], shape: Shape) -> Result<(), u8> {
    wind[..shape.wind_len()]
        .iter()
        .try_for_each(|&c| wind_in_range(c))
}

/// ωaωb of a node in its place, "b outer, a inner".
pub fn node_weight(node: usize) -> i128 {
    OMEGA[node % 3] * OMEGA[node / 3]
}

/// Σ ωaωb times nine u32. Below 36 · 2^32, so a u64 holds it and its sums
/// over 4096 elements.
pub fn weighted_numbers(nodes: &[u32]) -> u64 {
    let sum = (0..NODES).map(|n| node_weight(n) * i128::from(nodes[n]));
    sum.sum::<i128>() as u64
}

/// "It holds M = Σ ωaωbφ + ρ."
pub fn element_mass(element: &[u32]) -> u64 {
    weighted_numbers(&element[..NODES]) + u64::from(element[NODES])
}

/// The smoke's numbers, its elements and then its stored total (request
/// 2026-06); the smoke must exist.
pub fn smoke_part(field: &[u32], shape: Shape, smoke: usize) -> &[u32] {
    let start = shape.place(smoke, 0, 0);
    &field[start..start + shape.smoke_len()]
}

/// The smoke's elements alone, ten numbers each.
pub fn smoke_elements(field: &[u32], shape: Shape, smoke: usize) -> &[u32] {
    &smoke_part(field, shape, smoke)[..shape.elements_len()]
}

/// The sum of M over the smoke's elements.
pub fn smoke_total(field: &[u32], shape: Shape, smoke: usize) -> u64 {
    let elements = smoke_elements(field, shape, smoke);
    elements.chunks_exact(PER_ELEMENT).map(element_mass).sum()
}

/// Document 02, 2026-06: the "one u32 more after its last element, holding its
/// total". Only in a sound smoke is it the sum.
pub fn stored_total(field: &[u32], shape: Shape, smoke: usize) -> u64 {
    u64::from(field[shape.total_place(smoke)])
}

/// Refusal 6 for one whole smoke. Document 02, 2026-06: "Step, the printed map,
/// file reading and file writing still sum, and give 6 where sum and stored
/// total differ." "A smoke number not below K has no numbers to search, so it
/// passes here and meets 7."
pub fn smoke_sound(field: &[u32], shape: Shape, smoke: usize) -> Result<(), u8> {
    if smoke >= shape.k {
        return Ok(());
    }
    let large = smoke_elements(field, shape, smoke)
        .chunks_exact(PER_ELEMENT)
        .any(|element| element[NODES] > LARGEST_REMAINDER);
    let sum = smoke_total(field, shape, smoke);
    if large || sum > LIMIT || sum != stored_total(field, shape, smoke) {
        return Err(UNSOUND);
    }
    Ok(())
}

/// Refusal 6 of a smoke's total: "a stored total above 100,000,000" (document
/// 02, 2026-06). The elements are not looked at.
pub fn stored_sound(field: &[u32], shape: Shape, smoke: usize) -> Result<(), u8> {
    if smoke < shape.k && stored_total(field, shape, smoke) > LIMIT {
        return Err(UNSOUND);
    }
    Ok(())
}

/// Refusal 6 of emission, withdrawal and an element's M. Document 02, 2026-06:
/// they "look at the named element and the stored total only. They give 6 for
/// that element's remainder above 35, a stored total above 100,000,000, or an
/// element holding more than it; one off the grid has no numbers."
pub fn element_sound(
    field: &[u32],
    shape: Shape,
    smoke: usize,
    (i, j): (usize, usize),
) -> Result<(), u8> {
    stored_sound(field, shape, smoke)?;
    if smoke >= shape.k || !shape.has_element(i, j) {
        return Ok(());
    }
    let place = shape.place(smoke, i, j);
    let element = &field[place..place + PER_ELEMENT];
    let held = element_mass(element);
    if element[NODES] > LARGEST_REMAINDER || held > stored_total(field, shape, smoke) {
        return Err(UNSOUND);
    }
    Ok(())
}

/// Refusal 6 "of any smoke in file reading and writing".
pub fn field_sound(field: &[u32], shape: Shape) -> Result<(), u8> {
    (0..shape.k).try_for_each(|smoke| smoke_sound(field, shape, smoke))
}

pub fn smoke_exists(shape: Shape, smoke: usize) -> Result<(), u8> {
    if smoke < shape.k {
        Ok(())
    } else {
        Err(NO_SMOKE)
    }
}

pub fn element_exists(shape: Shape, i: usize, j: usize) -> Result<(), u8> {
    if shape.has_element(i, j) {
        Ok(())
    } else {
        Err(NO_ELEMENT)
    }
}
