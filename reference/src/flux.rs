//! Face amounts and flux correction. Faces stand in the wind's order.

use crate::closing::Nodes;
use crate::nearest::nearest;
use crate::shape::{Shape, OMEGA};
use crate::tendency::Winds;

/// "G = C · Σ ω·(p0 + 4·p2 + p1) / 4096", the whole product divided. Document
/// 01 truncates it toward zero; document 02, 2026-02: "now rounds face amounts
/// to the nearest whole number, an exact half to the even one. G follows."
pub fn face_amount(c: i128, face_sum: i128) -> i128 {
    nearest(c * face_sum, 4096)
}

/// "G* = G if Out ≤ M, else |G| becomes floor(|G| · M / Out), sign kept."
/// Document 02, 2026-02: "The cut in the flux correction still uses floor."
pub fn cut(g: i128, mass: i128, out: i128) -> i128 {
    if out <= mass {
        return g;
    }
    g.signum() * (g.abs() * mass / out)
}

/// The two elements of a face: west (or south) first, then the other.
pub fn face_elements(shape: Shape, face: usize) -> (usize, usize) {
    let own = face % shape.elements();
    let (i, j) = (own % shape.nx, own / shape.nx);
    let other = if face < shape.elements() {
        shape.element(shape.east_of(i), j)
    } else {
        shape.element(i, shape.north_of(j))
    };
    (own, other)
}

/// The donor is taken "by the sign of G and not of C"; no amount, no donor.
pub fn donor(shape: Shape, face: usize, g: i128) -> Option<usize> {
    let (low, high) = face_elements(shape, face);
    match g.signum() {
        1 => Some(low),
        -1 => Some(high),
        _ => None,
    }
}

/// Every G from the three stages' upwind values.
pub fn face_amounts(winds: &Winds, stages: [&[Nodes]; 3]) -> Vec<i128> {
    let shape = winds.shape;
    let mut amounts = Vec::with_capacity(shape.wind_len());
    for j in 0..shape.ny {
        for i in 0..shape.nx {
            let sum = face_sum(|stage, at| winds.upwind_east(stages[stage], i, j, at));
            amounts.push(face_amount(winds.east(i, j), sum));
        }
    }
    for j in 0..shape.ny {
        for i in 0..shape.nx {
            let sum = face_sum(|stage, at| winds.upwind_north(stages[stage], i, j, at));
            amounts.push(face_amount(winds.north(i, j), sum));
        }
    }
    amounts
}

/// Σ over the face's three nodes of ω·(p0 + 4·p2 + p1); `p(stage, node)`.
fn face_sum(p: impl Fn(usize, usize) -> i128) -> i128 {
    (0..3)
        .map(|at| OMEGA[at] * (p(0, at) + 4 * p(2, at) + p(1, at)))
        .sum()
}

/// Every G* from the amounts and the M at the start of the step. Walking
/// over faces counts "each face once, also where nx or ny is 1".
pub fn corrected(shape: Shape, amounts: &[i128], masses: &[i128]) -> Vec<i128> {
    let mut out = vec![0; shape.elements()];
    for (face, &g) in amounts.iter().enumerate() {
        if let Some(giver) = donor(shape, face, g) {
            out[giver] += g.abs();
        }
    }
    let cut_face = |(face, &g): (usize, &i128)| match donor(shape, face, g) {
        Some(giver) => cut(g, masses[giver], out[giver]),
        None => 0,
    };
    amounts.iter().enumerate().map(cut_face).collect()
}
