//! The calls on a field beside the step: wind, fresh, load, emission,
//! withdrawal and the readings. Nothing is written before the last check.

use crate::checks::{
    element_exists, element_mass, element_sound, long_enough, smoke_exists, stored_sound,
    stored_total, weighted_numbers, wind_in_range, OVER_LIMIT, TOO_MUCH,
};
use crate::closing::{close, close_unlevelled, Closed, Nodes};
use crate::shape::{Shape, LIMIT, NODES, PER_ELEMENT};

/// "Which way a face looks is part of the call's record."
#[derive(Clone, Copy, Debug, PartialEq, Eq)]
pub enum Way {
    East,
    North,
}

/// Checks 2 4. "Fresh: writes zeros to field and wind." Every stored total is
/// among the field's numbers (document 02, 2026-06): "Fresh sets it to 0".
pub fn fresh(
    field: &mut [u32],
    wind: &mut [i16],
    nx: usize,
    ny: usize,
    k: usize,
) -> Result<(), u8> {
    let shape = Shape::checked(nx, ny, k)?;
    long_enough(field, shape.field_len())?;
    long_enough(wind, shape.wind_len())?;
    // "Surplus is left alone": only the shape's own numbers become zero.
    field[..shape.field_len()].fill(0);
    wind[..shape.wind_len()].fill(0);
    Ok(())
}

/// Checks 2 4 5 8. Refusal 5 regards "the offered one in a wind call", so
/// the stored winds are not searched here.
#[allow(clippy::too_many_arguments)]
pub fn wind(
    wind: &mut [i16],
    nx: usize,
    ny: usize,
    k: usize,
    way: Way,
    i: usize,
    j: usize,
    c: i16,
) -> Result<(), u8> {
    let shape = Shape::checked(nx, ny, k)?;
    long_enough(wind, shape.wind_len())?;
    wind_in_range(c)?;
    element_exists(shape, i, j)?;
    // "all east faces (j outer, i inner), then all north faces"
    let before = match way {
        Way::East => 0,
        Way::North => shape.elements(),
    };
    wind[before + shape.element(i, j)] = c;
    Ok(())
}

/// Checks 2 4 7 9. "Load doesn't look at the old numbers": every element of
/// the smoke is replaced, so the new total is that of the numbers alone. The
/// stored one isn't looked at either; it becomes "the new sum" (request
/// 2026-06).
pub fn load(
    field: &mut [u32],
    numbers: &[u32],
    nx: usize,
    ny: usize,
    k: usize,
    smoke: usize,
) -> Result<(), u8> {
    let shape = Shape::checked(nx, ny, k)?;
    long_enough(field, shape.field_len())?;
    long_enough(numbers, shape.load_len())?;
    smoke_exists(shape, smoke)?;
    let numbers = &numbers[..shape.load_len()];
    let new_total: u64 = numbers.chunks_exact(NODES).map(weighted_numbers).sum();
    if new_total > LIMIT {
        return Err(OVER_LIMIT);
    }
    let start = shape.place(smoke, 0, 0);
    let part = &mut field[start..start + shape.elements_len()];
    for (element, nodes) in part
        .chunks_exact_mut(PER_ELEMENT)
        .zip(numbers.chunks_exact(NODES))
    {
        element[..NODES].copy_from_slice(nodes);
        element[NODES] = 0;
    }
    store_total(field, shape, smoke, new_total);
    Ok(())
}

/// Writes the smoke's stored total (request 2026-06).
fn store_total(field: &mut [u32], shape: Shape, smoke: usize, total: u64) {
    let total = u32::try_from(total).expect("no accepted call brings it above the limit");
    field[shape.total_place(smoke)] = total;
}

/// An element's nine values as ψ.
pub fn signed_values(element: &[u32]) -> Nodes {
    std::array::from_fn(|n| i128::from(element[n]))
}

/// Checks 2 4 6 7 8, which emission, withdrawal and an element's M share.
fn found(
    field: &[u32],
    (nx, ny, k): (usize, usize, usize),
    smoke: usize,
    (i, j): (usize, usize),
) -> Result<(Shape, usize), u8> {
    let shape = Shape::checked(nx, ny, k)?;
    long_enough(field, shape.field_len())?;
    element_sound(field, shape, smoke, (i, j))?;
    smoke_exists(shape, smoke)?;
    element_exists(shape, i, j)?;
    Ok((shape, shape.place(smoke, i, j)))
}

/// Lays the closed numbers in their element. Document 02, 2026-04: "Emission
/// and withdrawal pass on their closing's figure, which is always 0 there".
fn passed_on(element: &mut [u32], closed: &Closed) -> u64 {
    element.copy_from_slice(&closed.numbers);
    closed.clipped
}

/// Checks 2 4 6 7 8 9, the last by the stored total (request 2026-06):
/// "emission adds q". "closing with ψ = φ, T = M + q". Answers the clipped mass.
#[allow(clippy::too_many_arguments)]
pub fn emission(
    field: &mut [u32],
    nx: usize,
    ny: usize,
    k: usize,
    smoke: usize,
    i: usize,
    j: usize,
    q: u64,
) -> Result<u64, u8> {
    let (shape, place) = found(field, (nx, ny, k), smoke, (i, j))?;
    let total = stored_total(field, shape, smoke);
    // 6 has passed, so the stored total is at most the limit.
    if q > LIMIT - total {
        return Err(OVER_LIMIT);
    }
    store_total(field, shape, smoke, total + q);
    let element = &mut field[place..place + PER_ELEMENT];
    let target = i128::from(element_mass(element)) + i128::from(q);
    let closed = close(&signed_values(element), target);
    Ok(passed_on(element, &closed))
}

/// Checks 2 4 6 7 8 10. "T = M − q, closing without levelling", and
/// "withdrawal takes q off" the stored total (request 2026-06), which isn't
/// below M. Answers the clipped mass.
#[allow(clippy::too_many_arguments)]
pub fn withdrawal(
    field: &mut [u32],
    nx: usize,
    ny: usize,
    k: usize,
    smoke: usize,
    i: usize,
    j: usize,
    q: u64,
) -> Result<u64, u8> {
    let (shape, place) = found(field, (nx, ny, k), smoke, (i, j))?;
    let held = element_mass(&field[place..place + PER_ELEMENT]);
    if q > held {
        return Err(TOO_MUCH);
    }
    let total = stored_total(field, shape, smoke);
    store_total(field, shape, smoke, total - q);
    let element = &mut field[place..place + PER_ELEMENT];
    let target = i128::from(held - q);
    let closed = close_unlevelled(&signed_values(element), target);
    Ok(passed_on(element, &closed))
}

/// Checks 2 4 6 7 8. An element's M.
pub fn mass(
    field: &[u32],
    nx: usize,
    ny: usize,
    k: usize,
    smoke: usize,
    i: usize,
    j: usize,
) -> Result<u64, u8> {
    let (_, place) = found(field, (nx, ny, k), smoke, (i, j))?;
    Ok(element_mass(&field[place..place + PER_ELEMENT]))
}

/// Checks 2 4 6 7. A smoke's total, which is the stored one (request 2026-06).
pub fn total(field: &[u32], nx: usize, ny: usize, k: usize, smoke: usize) -> Result<u64, u8> {
    let shape = Shape::checked(nx, ny, k)?;
    long_enough(field, shape.field_len())?;
    stored_sound(field, shape, smoke)?;
    smoke_exists(shape, smoke)?;
    Ok(stored_total(field, shape, smoke))
}
