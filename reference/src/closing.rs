//! Closing an element: nine signed ψ and a target T ≥ 0 become nine values
//! and a remainder. Beside them stands how much negative smoke the truncation
//! removed (request 2026-04).

use crate::checks::node_weight;
use crate::shape::{NODES, PER_ELEMENT};

/// Nine nodal numbers, b outer, a inner.
pub type Nodes = [i128; NODES];

/// What a closing gives.
#[derive(Clone, Copy, Debug, PartialEq, Eq)]
pub struct Closed {
    /// Nine values, then ρ.
    pub numbers: [u32; PER_ELEMENT],
    /// The clipped mass: what truncation added.
    pub clipped: u64,
}

pub fn weighted(nodes: &Nodes) -> i128 {
    (0..NODES).map(|n| node_weight(n) * nodes[n]).sum()
}

/// Floor toward minus infinity. For a positive divisor the Euclidean
/// quotient is exactly that.
pub fn floor_div(number: i128, divisor: i128) -> i128 {
    debug_assert!(divisor > 0);
    number.div_euclid(divisor)
}

/// Rule 1: "add floor((T − Σ ωaωbψ) / 36) to every ψ."
pub fn level(psi: &Nodes, target: i128) -> Nodes {
    let lift = floor_div(target - weighted(psi), 36);
    psi.map(|value| value + lift)
}

/// Rules 2 to 4; alone they are the withdrawal's "closing without levelling".
pub fn close_unlevelled(psi: &Nodes, target: i128) -> Closed {
    let mut values = psi.map(|value| value.max(0));
    let p = weighted(&values);
    // Here ψ is levelled, or it comes from a withdrawal. Document 02, 2026-04:
    // "P minus the weighted sum of the levelled numbers", and "without
    // levelling it is counted from ψ".
    let clipped = u64::try_from(p - weighted(psi)).expect("truncation only adds");
    // "if P ≤ T keep the values": never scaled up, and P > 0 where divided.
    if p > target {
        values = values.map(|value| floor_div(value * target, p));
    }
    let remainder = target - weighted(&values);
    let mut numbers = [0; PER_ELEMENT];
    for n in 0..NODES {
        numbers[n] = stored(values[n]);
    }
    numbers[NODES] = stored(remainder);
    Closed { numbers, clipped }
}

/// Rules 1 to 4.
pub fn close(psi: &Nodes, target: i128) -> Closed {
    close_unlevelled(&level(psi, target), target)
}

/// Every value and remainder lies in 0..=T, so a failure is a broken rule.
fn stored(number: i128) -> u32 {
    u32::try_from(number).expect("closed numbers lie between 0 and T")
}
