//! Random arguments that a call admits, drawn with an eye on what the field holds.

use crate::buffers::{Buffer, Buffers};
use crate::call::{Face, Grid, Operation, Place};
use crate::records::lay_records;
use compare::{content, files};
use reference::checks::{element_mass, stored_total};
use reference::file::encoded_as;
use reference::rng::Rng;
use reference::shape::{LIMIT, NODES, PER_ELEMENT};
use reference::Shape;

pub fn grid_of(shape: Shape) -> Grid {
    Grid {
        nx: shape.nx,
        ny: shape.ny,
        smokes: shape.k,
    }
}

/// A few numbers more than needed, most often none.
pub fn surplus(rng: &mut Rng) -> usize {
    match rng.below(3) {
        0 => rng.index(12),
        _ => 0,
    }
}

/// Any operation, steps most often; numbers, records, files and pages that it takes are laid in the buffers.
pub fn operation(rng: &mut Rng, b: &mut Buffers, shape: Shape) -> Operation {
    let at = place(rng, shape);
    match rng.below(126) {
        0..=1 => Operation::Fresh,
        2..=14 => Operation::Wind(face(rng, shape), rng.wind()),
        15..=24 => {
            lay_records(rng, b, shape);
            Operation::Import
        }
        25..=31 => {
            lay_numbers(rng, b, shape);
            Operation::Load(at.smoke)
        }
        32..=44 => Operation::Emission(at, emitted(rng, b, shape, at)),
        45..=57 => Operation::Withdrawal(at, withdrawn(rng, b, shape, at)),
        58..=86 => Operation::Step(at.smoke),
        87..=94 => Operation::Mass(at),
        95..=98 => Operation::Total(at.smoke),
        99..=108 => {
            lay_page(rng, b, shape);
            Operation::Map(at.smoke)
        }
        109..=119 => {
            lay_file(rng, b, shape);
            Operation::Read
        }
        _ => Operation::Write,
    }
}

fn place(rng: &mut Rng, shape: Shape) -> Place {
    Place {
        smoke: rng.index(shape.k),
        i: rng.index(shape.nx),
        j: rng.index(shape.ny),
    }
}

fn face(rng: &mut Rng, shape: Shape) -> Face {
    Face {
        way: rng.index(2) as u8,
        i: rng.index(shape.nx),
        j: rng.index(shape.ny),
    }
}

/// A smoke's stored total, where the field and the smoke are there.
pub fn total_of(b: &Buffers, shape: Shape, smoke: usize) -> u64 {
    let there = b.field.room() >= shape.field_len() && smoke < shape.k;
    match there {
        true => stored_total(b.field.space(), shape, smoke),
        false => 0,
    }
}

/// An element's M, where the field and the element are there.
pub fn mass_of(b: &Buffers, shape: Shape, at: Place) -> u64 {
    let there = b.field.room() >= shape.field_len() && at.smoke < shape.k;
    if !there || !shape.has_element(at.i, at.j) {
        return 0;
    }
    let start = shape.place(at.smoke, at.i, at.j);
    element_mass(&b.field.space()[start..start + PER_ELEMENT])
}

/// What an emission may bring: the limit counts from the stored total.
pub fn emitted(rng: &mut Rng, b: &Buffers, shape: Shape, at: Place) -> u64 {
    let room = LIMIT.saturating_sub(total_of(b, shape, at.smoke));
    match rng.below(12) {
        0 => room,
        1 => rng.below(room + 1),
        2 => 0,
        3 | 4 => rng.below(100_000).min(room),
        5 => rng.pick(&[35, 36, 37]).min(room),
        _ => rng.below(80).min(room),
    }
}

/// What a withdrawal may take: no more than the element holds.
pub fn withdrawn(rng: &mut Rng, b: &Buffers, shape: Shape, at: Place) -> u64 {
    let held = mass_of(b, shape, at);
    match rng.below(9) {
        0 | 1 => held,
        2 => held.saturating_sub(1),
        3 => held.saturating_sub(rng.below(40)),
        4 => rng.below(40).min(held),
        5 => 0,
        _ => rng.below(held + 1),
    }
}

/// The nine values of each element of a random smoke, with surplus of any content.
fn lay_numbers(rng: &mut Rng, b: &mut Buffers, shape: Shape) {
    let elements = content::elements(rng, shape);
    let values = elements.chunks_exact(PER_ELEMENT).map(|e| &e[..NODES]);
    let mut numbers = values.collect::<Vec<_>>().concat();
    if rng.once_in(6) {
        // With the remainders gone the total is below the limit: a corner takes what is missing.
        let sum = numbers.chunks_exact(NODES);
        let sum: u64 = sum.map(reference::checks::weighted_numbers).sum();
        numbers[0] += (LIMIT - sum) as u32;
    }
    for _ in 0..surplus(rng) {
        numbers.push(rng.draw() as u32);
    }
    b.numbers = Buffer::new(&numbers, u32::MAX);
}

/// Room for a page, of any content.
fn lay_page(rng: &mut Rng, b: &mut Buffers, shape: Shape) {
    let count = shape.page_len() + surplus(rng);
    b.page = Buffer::new(&files::bytes(rng, count), 0x3C);
}

/// A file of either mark: of the field as it is, of another field, or of another shape.
fn lay_file(rng: &mut Rng, b: &mut Buffers, shape: Shape) {
    let mark = files::any_mark(rng);
    let holds = b.field.room() >= shape.field_len() && b.wind.room() >= shape.wind_len();
    let file = match rng.below(8) {
        0 if holds => encoded_as(mark, b.field.space(), b.wind.space(), shape),
        1 => {
            let other = content::shape(rng, 200);
            files::sound(rng, mark, other)
        }
        _ => files::sound(rng, mark, shape),
    };
    b.file = Buffer::new(&file, 0xA5);
}
