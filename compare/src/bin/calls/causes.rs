//! Why a call answers 6 (document 02, 2026-06): the one cause where there is one alone, so that a program that misses it is seen.

use crate::buffers::Buffers;
use crate::call::{Call, Operation, Place};
use compare::content::sum;
use compare::files;
use reference::checks::{element_mass, smoke_part, stored_total};
use reference::file::file_shape;
use reference::shape::{LARGEST_REMAINDER, LIMIT, NODES, PER_ELEMENT};
use reference::{Mark, Shape};

#[derive(Clone, Copy, PartialEq)]
pub enum Cause {
    /// A remainder above 35.
    Remainder,
    /// A stored total above the limit; where the call sums, the sum is within it.
    Stored,
    /// A stored total above the limit, where the named element is off the grid.
    OffGrid,
    /// The named element holds more than the stored total.
    Held,
    /// A sum above the limit, with the same stored total.
    Sum,
    /// A sum above the limit, with a stored total within it.
    Above,
    /// A sum above the limit that 32 bits would take for the stored total.
    Wrapped,
    /// Sum and stored total differ, neither above the limit.
    Differ,
    Several,
}

/// The names of the causes, in their order.
pub const CAUSES: [&str; 9] = [
    "remainder",
    "stored",
    "off grid",
    "held",
    "sum",
    "above",
    "wrapped",
    "differ",
    "several",
];

/// Why a call was refused with 6. Its buffers are those that it was lent.
pub fn cause(call: &Call, b: &Buffers) -> Cause {
    let field = b.field.lent();
    let shape = call.grid.shape();
    let whole = |smoke| of_part(smoke_part(field, shape, smoke));
    match call.operation {
        Operation::Emission(at, _) | Operation::Withdrawal(at, _) | Operation::Mass(at) => {
            of_element(field, shape, at)
        }
        Operation::Step(smoke) | Operation::Map(smoke) => alone([whole(smoke)]),
        Operation::Read => of_file(b.file.lent()),
        Operation::Write => alone((0..shape.k).map(whole)),
        _ => Cause::Stored,
    }
}

/// The only cause of all, where there is but one.
fn alone(causes: impl IntoIterator<Item = Option<Cause>>) -> Cause {
    let mut causes = causes.into_iter().flatten();
    match (causes.next(), causes.next()) {
        (Some(cause), None) => cause,
        _ => Cause::Several,
    }
}

/// What makes the named element unsound, or the stored total of its smoke.
fn of_element(field: &[u32], shape: Shape, at: Place) -> Cause {
    let total = stored_total(field, shape, at.smoke);
    if !shape.has_element(at.i, at.j) {
        return Cause::OffGrid;
    }
    let place = shape.place(at.smoke, at.i, at.j);
    let element = &field[place..place + PER_ELEMENT];
    alone([
        (element[NODES] > LARGEST_REMAINDER).then_some(Cause::Remainder),
        (total > LIMIT).then_some(Cause::Stored),
        (element_mass(element) > total).then_some(Cause::Held),
    ])
}

/// What makes a whole part unsound.
fn of_part(part: &[u32]) -> Option<Cause> {
    let (&total, elements) = part.split_last()?;
    of_smoke(elements, total.into())
}

fn of_smoke(elements: &[u32], total: u64) -> Option<Cause> {
    let sum = sum(elements);
    let large = elements
        .chunks_exact(PER_ELEMENT)
        .any(|element| element[NODES] > LARGEST_REMAINDER);
    let low = sum % (1 << 32);
    match (large, sum > LIMIT, total > LIMIT) {
        (false, false, false) if sum == total => None,
        (true, false, false) if sum == total => Some(Cause::Remainder),
        (true, ..) => Some(Cause::Several),
        (_, true, _) if sum > low && low <= LIMIT && [low, sum].contains(&total) => {
            Some(Cause::Wrapped)
        }
        (_, true, _) if sum == total => Some(Cause::Sum),
        (_, true, false) => Some(Cause::Above),
        (_, true, true) => Some(Cause::Several),
        (_, false, true) => Some(Cause::Stored),
        (_, false, false) => Some(Cause::Differ),
    }
}

/// A "PLUM" file has no totals: its sums are in their place.
fn of_file(file: &[u8]) -> Cause {
    let (mark, shape) = file_shape(file).expect("1, 2 and 3 come before 6");
    let of_section = |smoke| {
        let part = files::part(file, mark, shape, smoke);
        match mark {
            Mark::Plum => {
                let elements = &part[..shape.elements_len()];
                of_smoke(elements, sum(elements))
            }
            Mark::Plu2 => of_part(&part),
        }
    };
    alone((0..shape.k).map(of_section))
}
