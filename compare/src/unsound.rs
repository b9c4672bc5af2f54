//! Faults in a smoke's part, in a field or in a file: remainders, sums and stored totals (document 02, 2026-06).

use crate::content::{fill_up, store_sum, sum};
use reference::checks::element_mass;
use reference::rng::Rng;
use reference::shape::{LIMIT, NODES, PER_ELEMENT};

/// Lays one fault; of the elements it regards the given one most often. `other` is what another smoke has for its stored total.
pub fn spoil_part(rng: &mut Rng, part: &mut [u32], element: usize, other: u32) {
    let (total, elements) = part.split_last_mut().expect("a part ends with its total");
    let start = PER_ELEMENT * element;
    match rng.below(20) {
        0..=5 => large_remainder(rng, part, element),
        6..=8 => full(rng, part),
        9..=11 => wraps(rng, &mut elements[start..start + PER_ELEMENT]),
        12 => high(rng, part, element),
        13 | 14 => hold_more(&mut elements[start..start + PER_ELEMENT], *total),
        _ => *total = wrong_total(rng, elements, element, other),
    }
}

/// Most often the stored total follows the sum, so that only another fault shows.
fn follow(rng: &mut Rng, part: &mut [u32]) {
    if !rng.once_in(4) {
        store_sum(part);
    }
}

fn large_remainder(rng: &mut Rng, part: &mut [u32], element: usize) {
    let elements = part.len() / PER_ELEMENT;
    let at = match rng.once_in(4) {
        true => rng.index(elements),
        false => element,
    };
    part[PER_ELEMENT * at + NODES] = rng.pick(&[36, 36, 36, 37, 255, 256, 1 << 16, u32::MAX, 35]);
    follow(rng, part);
}

/// A sum of just the limit, one above it, or as high as a stored total can be.
fn full(rng: &mut Rng, part: &mut [u32]) {
    let elements = part.len() - 1;
    let elements = &mut part[..elements];
    let sum = sum(elements);
    if sum <= LIMIT {
        let wanted = rng.pick(&[LIMIT, LIMIT + 1, LIMIT + 1, u32::MAX.into()]);
        fill_up(rng, elements, wanted - sum);
    }
    follow(rng, part);
}

/// The element holds 2^32 more: a sum of 32 bits stays as it was.
fn wraps(rng: &mut Rng, element: &mut [u32]) {
    let (node, more) = rng.pick(&[(4, 1 << 28), (1, 1 << 30), (7, 1 << 30)]);
    element[node] = element[node].wrapping_add(more);
}

/// Values far above the limit: of one node, or of all.
fn high(rng: &mut Rng, part: &mut [u32], element: usize) {
    let elements = part.len() - 1;
    match rng.below(3) {
        0 => part.fill(u32::MAX),
        1 => part[..elements].fill(u32::MAX),
        _ => part[PER_ELEMENT * element + 4] = 1 << 28,
    }
}

/// The element holds one more than the stored total, where it held no more.
fn hold_more(element: &mut [u32], total: u32) {
    if let Some(room) = u64::from(total).checked_sub(element_mass(element)) {
        element[0] = u32::try_from(u64::from(element[0]) + room + 1).unwrap_or(u32::MAX);
    }
}

/// A stored total beside the sum, far from it, above the limit, about what the element holds, or another smoke's.
fn wrong_total(rng: &mut Rng, elements: &[u32], element: usize, other: u32) -> u32 {
    let start = PER_ELEMENT * element;
    let (sum, held) = (
        sum(elements),
        element_mass(&elements[start..start + PER_ELEMENT]),
    );
    let any = rng.below(LIMIT + 1);
    let total = match rng.below(16) {
        0 | 1 => sum + 1,
        2 | 3 => sum.saturating_sub(1),
        4..=9 => rng.pick(&[LIMIT + 1, LIMIT + 1, 1 << 31, u32::MAX.into()]),
        10 | 11 => rng.pick(&[LIMIT - 1, LIMIT]),
        12 => rng.pick(&[0, held, held.saturating_sub(1)]),
        13 => other.into(),
        14 => rng.below(sum + 1),
        _ => any,
    };
    u32::try_from(total).unwrap_or(u32::MAX)
}
