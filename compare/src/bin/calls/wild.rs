//! Faults: what a call does not admit, laid in its arguments, in the lent lengths or in what the buffers hold.

use crate::arguments::{mass_of, total_of};
use crate::buffers::{Buffer, Buffers};
use crate::call::{Call, Grid, Operation, Place};
use crate::field::spoil_stored_field;
use crate::records::spoil_records;
use compare::{damage, files};
use reference::file::file_shape;
use reference::rng::Rng;
use reference::shape::{LIMIT, NODES};
use reference::{Mark, Shape};

/// Lays one fault. Some do not regard the call, as a bad number of another smoke: then they must not show in its answer.
pub fn spoil(rng: &mut Rng, call: &mut Call, b: &mut Buffers, shape: Shape) {
    let reads = matches!(call.operation, Operation::Read);
    let imports = matches!(call.operation, Operation::Import);
    match rng.below(18) {
        // a reading names no shape, its file has many parts
        0 | 1 | 4..=12 if reads => spoil_file(rng, b),
        0 | 1 => spoil_grid(rng, &mut call.grid),
        2 | 3 => lend_short(rng, call, b, shape),
        4 => spoil_stored_wind(rng, b, shape),
        // an import is lent no field
        5..=12 if !imports => spoil_stored_field(rng, call, b, shape),
        _ => spoil_arguments(rng, call, b, shape),
    }
}

/// A number that is not below `bound`: just beyond, far beyond, or the same as a good one in its lower bits.
fn beyond(rng: &mut Rng, bound: usize) -> usize {
    let good = rng.index(bound);
    rng.pick(&[
        bound,
        bound,
        bound + 1,
        bound + good,
        good + (1 << 8),
        good + (1 << 16),
        good + (1 << 32),
        good + (1 << 63),
        usize::MAX,
    ])
}

fn spoil_grid(rng: &mut Rng, grid: &mut Grid) {
    let side = match rng.below(3) {
        0 => &mut grid.nx,
        1 => &mut grid.ny,
        _ => {
            grid.smokes = rng.pick(&[0, 9, 10, 255, grid.smokes.wrapping_add(1 << 32), usize::MAX]);
            return;
        }
    };
    let good = *side;
    *side = match rng.below(8) {
        0 | 1 => 0,
        2 | 3 => 65,
        4 => good.wrapping_add(1 << 8),
        5 => good.wrapping_add(1 << 32),
        6 => 1 << 63,
        _ => usize::MAX,
    };
}

/// A length below the needed one: by one, nothing, or any.
fn short(rng: &mut Rng, need: usize) -> usize {
    match rng.below(4) {
        0 | 1 => need - 1,
        2 => 0,
        _ => rng.index(need),
    }
}

/// Lends one of the call's buffers short.
fn lend_short(rng: &mut Rng, call: &Call, b: &mut Buffers, shape: Shape) {
    let lend_field = |rng: &mut Rng, b: &mut Buffers| b.field.lend(short(rng, shape.field_len()));
    let lend_wind = |rng: &mut Rng, b: &mut Buffers| b.wind.lend(short(rng, shape.wind_len()));
    let which = rng.below(4);
    match (call.operation, which) {
        (Operation::Import, 0) => b.records.lend(rng.index(b.records.room() + 1)),
        (Operation::Wind(..) | Operation::Import, _) => lend_wind(rng, b),
        (Operation::Load(_), 0 | 1) => b.numbers.lend(short(rng, shape.load_len())),
        (Operation::Step(_), 0) => b.report.lend(short(rng, shape.wind_len())),
        (Operation::Step(_), 1) => b.work.lend(short(rng, shape.work_len())),
        (Operation::Write, 0 | 1) => b.out.lend(short(rng, shape.file_len(Mark::Plu2))),
        (Operation::Map(_), 0 | 1) => b.page.lend(short(rng, shape.page_len())),
        (Operation::Read, 0) => b.file.lend(rng.index(b.file.room() + 1)),
        (Operation::Fresh | Operation::Step(_) | Operation::Write | Operation::Read, 2) => {
            lend_wind(rng, b)
        }
        _ => lend_field(rng, b),
    }
}

fn spoil_stored_wind(rng: &mut Rng, b: &mut Buffers, shape: Shape) {
    let wind = b.wind.space_mut();
    // Once in six at any place, so that surplus is met too.
    let among = match rng.once_in(6) {
        true => wind.len(),
        false => wind.len().min(shape.wind_len()),
    };
    let at = rng.index(among);
    wind[at] = rng.pick(&[1025, -1025, i16::MAX, i16::MIN, 1024, -1024]);
}

fn spoil_arguments(rng: &mut Rng, call: &mut Call, b: &mut Buffers, shape: Shape) {
    match &mut call.operation {
        Operation::Fresh => spoil_grid(rng, &mut call.grid),
        Operation::Wind(face, c) => match rng.below(3) {
            0 => face.way = rng.pick(&[2, 3, 128, 254, 255]),
            1 => *c = rng.pick(&[1025, -1025, i16::MIN, i16::MAX, 1024, -1024]),
            _ => off_grid(rng, shape, &mut face.i, &mut face.j),
        },
        Operation::Import => spoil_records(rng, b, shape),
        Operation::Load(smoke) => match rng.below(3) {
            0 => *smoke = beyond(rng, shape.k),
            _ => spoil_numbers(rng, b, shape),
        },
        Operation::Emission(at, q) => match rng.below(3) {
            0 => spoil_place(rng, shape, at),
            _ => *q = over_limit(rng, total_of(b, shape, at.smoke)),
        },
        Operation::Withdrawal(at, q) => match rng.below(3) {
            0 => spoil_place(rng, shape, at),
            _ => *q = over_held(rng, mass_of(b, shape, *at)),
        },
        Operation::Mass(at) => spoil_place(rng, shape, at),
        Operation::Step(smoke) | Operation::Total(smoke) | Operation::Map(smoke) => {
            *smoke = beyond(rng, shape.k)
        }
        Operation::Read => spoil_file(rng, b),
        Operation::Write => match rng.once_in(2) {
            true => spoil_stored_wind(rng, b, shape),
            false => spoil_stored_field(rng, call, b, shape),
        },
    }
}

pub fn off_grid(rng: &mut Rng, shape: Shape, i: &mut usize, j: &mut usize) {
    match rng.below(4) {
        0 | 1 => *i = beyond(rng, shape.nx),
        2 => *j = beyond(rng, shape.ny),
        _ => (*i, *j) = (beyond(rng, shape.nx), beyond(rng, shape.ny)),
    }
}

fn spoil_place(rng: &mut Rng, shape: Shape, at: &mut Place) {
    match rng.once_in(2) {
        true => at.smoke = beyond(rng, shape.k),
        false => off_grid(rng, shape, &mut at.i, &mut at.j),
    }
}

/// Emissions above the limit: by one, and such as a sum of too few bits would let pass.
fn over_limit(rng: &mut Rng, total: u64) -> u64 {
    let over = LIMIT.saturating_sub(total) + 1;
    let low = rng.below(80);
    rng.pick(&[
        over,
        over,
        LIMIT + 1,
        low + (1 << 32),
        low + (1 << 63),
        total.wrapping_neg(),
        u64::MAX,
    ])
}

/// Withdrawals above what is held.
fn over_held(rng: &mut Rng, held: u64) -> u64 {
    rng.pick(&[
        held + 1,
        held + 1,
        held + (1 << 32),
        held + (1 << 63),
        u64::MAX,
    ])
}

/// Numbers of a load above the limit: by one, by one node, or as high as can be.
fn spoil_numbers(rng: &mut Rng, b: &mut Buffers, shape: Shape) {
    let numbers = b.numbers.space_mut();
    let needed = shape.load_len().min(numbers.len());
    let sum = numbers[..needed].chunks_exact(NODES);
    let sum: u64 = sum.map(reference::checks::weighted_numbers).sum();
    match rng.below(5) {
        0 => numbers.fill(u32::MAX),
        1 => numbers[NODES * rng.index(needed / NODES) + 4] = 1 << 28,
        2 => numbers[rng.index(needed)] = rng.pick(&[LIMIT as u32 + 1, u32::MAX, 1 << 31]),
        _ => numbers[0] = (u64::from(numbers[0]) + LIMIT + 1).saturating_sub(sum) as u32,
    }
}

/// A damaged file, or bytes that never were one.
fn spoil_file(rng: &mut Rng, b: &mut Buffers) {
    let mut file = b.file.space().to_vec();
    let length = rng.index(201);
    match (rng.below(12), file_shape(&file)) {
        (0, _) => file = files::bytes(rng, length),
        (1, _) => file = files::tailed(rng, length),
        (2, Ok((mark, shape))) => file = files::wild_content(rng, mark, shape),
        (3..=6, Ok((mark, shape))) => damage::content_damage(rng, &mut file, mark, shape),
        (_, Ok((mark, shape))) => damage::damage(rng, &mut file, mark, shape),
        (3..=6, Err(_)) => file.truncate(length),
        (_, Err(_)) => {}
    }
    b.file = Buffer::new(&file, 0xA5);
}
