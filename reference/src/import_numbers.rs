//! Random f64 numbers for wind records, as their 64 bits and built from
//! whole numbers alone. Among finite numbers of one sign a larger number has
//! larger bits, so a neighbour is one more or one less.

use crate::rng::Rng;

const SIGN: u64 = 1 << 63;
const INFINITY: u64 = 2047 << 52;
const FRACTION: u64 = (1 << 52) - 1;
const SMALLEST_NORMAL: u64 = 1 << 52;

/// 1024.5 / 4096, the largest number that becomes 1024: a half, whose even
/// neighbour is 1024. The next one becomes 1025.
pub const EDGE: u64 = exact(2049, -13);

/// The bits of whole · 2^power. The whole number must be below 2^53, so that
/// no bit is lost, and the result zero or normal.
pub const fn exact(whole: u64, power: i32) -> u64 {
    if whole == 0 {
        return 0;
    }
    let top = 63 - whole.leading_zeros();
    assert!(top <= 52);
    let exponent = power + top as i32 + 1023;
    assert!(1 <= exponent && exponent <= 2046);
    ((exponent as u64) << 52) | ((whole << (52 - top)) & FRACTION)
}

/// C / 4096.
fn of_wind(c: u64) -> u64 {
    exact(c, -12)
}

/// (C + 1/2) / 4096.
fn of_half(c: u64) -> u64 {
    exact(2 * c + 1, -13)
}

fn signed(rng: &mut Rng, size: u64) -> u64 {
    size | rng.pick(&[0, SIGN])
}

/// The next number, away from zero or toward it.
fn beside(rng: &mut Rng, size: u64) -> u64 {
    rng.pick(&[size + 1, size - 1])
}

/// A finite number whose C is within ±1024. Exact winds are frequent, so
/// that lists with imports have something to blow.
pub fn good(rng: &mut Rng) -> u64 {
    let size = match rng.below(20) {
        0..=7 => of_wind(rng.below(1025)),
        8 | 9 => of_wind(1024),
        10 | 11 => of_half(rng.below(1025)),
        12 => {
            let half = of_half(rng.below(1024));
            beside(rng, half)
        }
        13 => {
            let wind = of_wind(1 + rng.below(1024));
            beside(rng, wind)
        }
        14 => EDGE - rng.pick(&[0, 0, 1, 1, 2]),
        // Any number from 2^−14 on, where C begins to show.
        15 => {
            let lowest = exact(1, -14);
            lowest + rng.below(EDGE - lowest + 1)
        }
        // Any number at all up to the edge: all exponents, C nearly always 0.
        16 => rng.below(EDGE + 1),
        17 => 0,
        18 => subnormal(rng),
        _ => tiny(rng),
    };
    signed(rng, size)
}

fn subnormal(rng: &mut Rng) -> u64 {
    match rng.below(4) {
        0 => 1,
        1 => FRACTION,
        2 => 1 << rng.below(52),
        _ => 1 + rng.below(FRACTION),
    }
}

/// Normal numbers far below a half of C.
fn tiny(rng: &mut Rng) -> u64 {
    match rng.below(3) {
        0 => SMALLEST_NORMAL + rng.below(2),
        1 => exact(1, -14 - rng.below(1009) as i32),
        _ => SMALLEST_NORMAL + rng.below(exact(1, -14) - SMALLEST_NORMAL),
    }
}

/// A finite number whose C is outside ±1024.
pub fn beyond(rng: &mut Rng) -> u64 {
    let size = match rng.below(8) {
        0 | 1 => EDGE + 1 + rng.below(2),
        2 => of_wind(1025),
        3 => of_half(1025 + rng.below(1024)),
        4 => EDGE + 1 + rng.below(1 << 52),
        5 => wrapping(rng),
        6 => rng.pick(&[exact(1, 1023), INFINITY - 1, exact(1, 1011), exact(1, 1012)]),
        _ => EDGE + 1 + rng.below(INFINITY - EDGE - 1),
    };
    signed(rng, size)
}

/// A number whose C is a small wind plus a power of two: where a conversion
/// kept the low bits only, it would seem to be a good one.
fn wrapping(rng: &mut Rng) -> u64 {
    match rng.below(3) {
        0 => of_wind((1 << rng.pick(&[15, 16, 31, 32])) + rng.below(1025)),
        1 => of_wind((1 << 52) + rng.below(1025)),
        _ => exact(1, -12 + rng.pick(&[53, 63, 64, 65, 127, 128, 129])),
    }
}

/// An infinity, or a nan with one of several payloads.
pub fn not_finite(rng: &mut Rng) -> u64 {
    let payload = match rng.below(6) {
        0 | 1 => 0,
        2 => 1,
        3 => 1 << 51,
        4 => FRACTION,
        _ => 1 + rng.below(FRACTION),
    };
    signed(rng, INFINITY + payload)
}
