//! The step of one smoke.

use crate::calls::signed_values;
use crate::checks::{element_mass, long_enough, smoke_exists, smoke_sound, winds_in_range};
use crate::closing::{close, floor_div, Nodes};
use crate::flux::{corrected, face_amounts, face_elements};
use crate::held::{keep_by_faces, Held};
use crate::shape::{Shape, PER_ELEMENT};
use crate::tendency::{tendencies, Winds};

/// Checks 2 4 5 6 7. Of `work` only the length matters: "An accepted step
/// leaves work free: any content", and leaving it as it was is one content.
/// Answers the clipped mass of all its elements (request 2026-04). The smoke's
/// stored total must be its sum, and "a step leaves it" (request 2026-06).
#[allow(clippy::too_many_arguments)]
pub fn step(
    field: &mut [u32],
    wind: &[i16],
    report: &mut [i32],
    work: &mut [i64],
    nx: usize,
    ny: usize,
    k: usize,
    smoke: usize,
) -> Result<u64, u8> {
    let held = Held::ByItsFace;
    step_with(held, field, wind, report, work, nx, ny, k, smoke)
}

/// The step under either rule for held smoke (request 2026-05); all else is
/// alike.
#[allow(clippy::too_many_arguments)]
pub fn step_with(
    held: Held,
    field: &mut [u32],
    wind: &[i16],
    report: &mut [i32],
    work: &mut [i64],
    nx: usize,
    ny: usize,
    k: usize,
    smoke: usize,
) -> Result<u64, u8> {
    let shape = Shape::checked(nx, ny, k)?;
    long_enough(field, shape.field_len())?;
    long_enough(wind, shape.wind_len())?;
    long_enough(report, shape.wind_len())?;
    long_enough(work, shape.work_len())?;
    winds_in_range(wind, shape)?;
    smoke_sound(field, shape, smoke)?;
    smoke_exists(shape, smoke)?;

    let winds = Winds { shape, faces: wind };
    let start = shape.place(smoke, 0, 0);
    let part = &mut field[start..start + shape.elements_len()];
    let (moved, clipped) = advance(held, &winds, part);
    for (face, &g) in moved.iter().enumerate() {
        report[face] = i32::try_from(g).expect("no face moves more than its donor's M");
    }
    Ok(clipped)
}

/// Steps one smoke's elements and answers every G* and the clipped mass.
fn advance(held: Held, winds: &Winds, part: &mut [u32]) -> (Vec<i128>, u64) {
    let elements = || part.chunks_exact(PER_ELEMENT);
    let phi0: Vec<Nodes> = elements().map(signed_values).collect();
    // "dropping ρ from M" is among the easy mistakes: M includes it.
    let masses: Vec<i128> = elements().map(|e| i128::from(element_mass(e))).collect();

    let (stages, mut psi) = stages(winds, phi0);
    let amounts = face_amounts(winds, [&stages[0], &stages[1], &stages[2]]);
    let moved = corrected(winds.shape, &amounts, &masses);
    let targets = targets(winds.shape, &masses, &moved);
    if held == Held::ByItsFace {
        keep_by_faces(winds.shape, &mut psi, &amounts, &moved);
    }
    // Document 02, 2026-04: "A step gives the sum of this over its elements".
    // No |ψ| reaches 1.5 · 10^10 and no levelled number twice that, so the sum
    // over 4096 elements stays below 2^52.
    let mut clipped = 0;
    for (at, element) in part.chunks_exact_mut(PER_ELEMENT).enumerate() {
        let closed = close(&psi[at], targets[at]);
        element.copy_from_slice(&closed.numbers);
        clipped += closed.clipped;
    }
    (moved, clipped)
}

/// φ0, φ1, φ2 and the tentative ψ. "the stages run uncut"
fn stages(winds: &Winds, phi0: Vec<Nodes>) -> ([Vec<Nodes>; 3], Vec<Nodes>) {
    let t0 = tendencies(winds, &phi0);
    let phi1 = moved_by(&phi0, |at, n| t0[at][n]);
    let t1 = tendencies(winds, &phi1);
    let phi2 = moved_by(&phi0, |at, n| floor_div(t0[at][n] + t1[at][n], 4));
    let t2 = tendencies(winds, &phi2);
    let psi = moved_by(&phi0, |at, n| {
        floor_div(t0[at][n] + t1[at][n] + 4 * t2[at][n], 6)
    });
    ([phi0, phi1, phi2], psi)
}

fn moved_by(phi0: &[Nodes], change: impl Fn(usize, usize) -> i128) -> Vec<Nodes> {
    let moved = |(at, phi): (usize, &Nodes)| std::array::from_fn(|n| phi[n] + change(at, n));
    phi0.iter().enumerate().map(moved).collect()
}

/// "T = M − G*(east) + G*(west) − G*(north) + G*(south)", walked over faces:
/// each G* comes off its west or south element and is added to the other.
fn targets(shape: Shape, masses: &[i128], moved: &[i128]) -> Vec<i128> {
    let mut targets = masses.to_vec();
    for (face, &g) in moved.iter().enumerate() {
        let (low, high) = face_elements(shape, face);
        targets[low] -= g;
        targets[high] += g;
    }
    targets
}
