//! Faults in what the field holds, laid where the call looks or beside it, and how the host mends them.

use crate::arguments::{emitted, total_of, withdrawn};
use crate::buffers::Buffers;
use crate::call::{Call, Operation, Place};
use crate::wild::off_grid;
use compare::content;
use compare::unsound::spoil_part;
use reference::checks::smoke_sound;
use reference::rng::Rng;
use reference::shape::LIMIT;
use reference::Shape;

/// The smoke that a call names, most often; else any.
fn named_smoke(rng: &mut Rng, call: &Call, shape: Shape) -> usize {
    let named = match call.operation {
        Operation::Emission(at, _) | Operation::Withdrawal(at, _) | Operation::Mass(at) => at.smoke,
        Operation::Load(smoke)
        | Operation::Step(smoke)
        | Operation::Total(smoke)
        | Operation::Map(smoke) => smoke,
        _ => usize::MAX,
    };
    match named < shape.k && !rng.once_in(3) {
        true => named,
        false => rng.index(shape.k),
    }
}

/// The element that a call names.
fn named_place(call: &mut Call) -> Option<&mut Place> {
    match &mut call.operation {
        Operation::Emission(at, _) | Operation::Withdrawal(at, _) | Operation::Mass(at) => Some(at),
        _ => None,
    }
}

/// The number of the element that a call names, most often; else of any.
fn named_element(rng: &mut Rng, call: &mut Call, shape: Shape) -> usize {
    match named_place(call) {
        Some(at) if shape.has_element(at.i, at.j) && !rng.once_in(3) => shape.element(at.i, at.j),
        _ => rng.index(shape.elements()),
    }
}

/// Lays a fault in the field, once in sixteen in its last number, which may be surplus.
pub fn spoil_stored_field(rng: &mut Rng, call: &mut Call, b: &mut Buffers, shape: Shape) {
    if b.field.room() < shape.field_len() {
        return;
    }
    let smoke = named_smoke(rng, call, shape);
    let element = named_element(rng, call, shape);
    let other = total_of(b, shape, rng.index(shape.k)) as u32;
    let field = b.field.space_mut();
    if rng.once_in(16) {
        *field.last_mut().expect("a field is not empty") = u32::MAX;
        return;
    }
    let start = shape.place(smoke, 0, 0);
    spoil_part(
        rng,
        &mut field[start..start + shape.smoke_len()],
        element,
        other,
    );
    follow(rng, call, b, shape);
}

/// Often an amount by what is stored now; where the stored total is above the limit, at times an element off the grid.
fn follow(rng: &mut Rng, call: &mut Call, b: &Buffers, shape: Shape) {
    let anew = rng.below(4);
    match (&mut call.operation, anew) {
        (Operation::Emission(at, q), 0) => *q = emitted(rng, b, shape, *at),
        (Operation::Emission(at, q), 1 | 2) => {
            *q = LIMIT.saturating_sub(total_of(b, shape, at.smoke)) + 1;
        }
        (Operation::Withdrawal(at, q), 0) => *q = withdrawn(rng, b, shape, *at),
        _ => {}
    }
    match named_place(call) {
        Some(at) if total_of(b, shape, at.smoke) > LIMIT && rng.once_in(3) => {
            off_grid(rng, shape, &mut at.i, &mut at.j)
        }
        _ => {}
    }
}

/// Gives every unsound smoke of the field other numbers, which are sound.
pub fn mend(rng: &mut Rng, b: &mut Buffers, shape: Shape) {
    let field = b.field.space_mut();
    for smoke in 0..shape.k {
        if smoke_sound(field, shape, smoke).is_err() {
            let start = shape.place(smoke, 0, 0);
            let part = content::smoke(rng, shape);
            field[start..start + shape.smoke_len()].copy_from_slice(&part);
        }
    }
}
