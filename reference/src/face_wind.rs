//! From the 64 bits of an f64 to C, by whole numbers alone: "Each number
//! becomes C, the whole number nearest 4096 times its exact binary value,
//! the even one at a half" (request 2026-01).

use crate::nearest::nearest;

/// What the 64 bits give.
#[derive(Clone, Copy, Debug, PartialEq, Eq)]
pub enum FaceWind {
    /// An infinity or a nan.
    NotFinite,
    /// The exact C, whether a face may have it or not.
    Whole(i128),
    /// A finite number with C at or beyond ±2^117. Which C that is no longer
    /// matters, and from 2^128 no machine integer holds it.
    Beyond,
}

const FRACTION_BITS: u32 = 52;
const EXPONENTS: u64 = 2048;

/// 4096 = 2^12.
const SCALE_POWER: i32 = 12;

/// The highest power of two that is worked out: a significand is below 2^53,
/// so the product stays below 2^117 and an i128 holds it.
const HIGHEST_POWER: i32 = 64;

/// With more binary places than this, 2^53 units are far below a half.
const MOST_PLACES: u32 = 100;

/// An f64 is its sign, eleven bits of exponent and 52 of fraction, from the
/// highest bit to the lowest. Its value is ± significand · 2^power.
pub fn face_wind(bits: u64) -> FaceWind {
    let negative = bits >> 63 == 1;
    let exponent = (bits >> FRACTION_BITS) % EXPONENTS;
    let fraction = bits % (1 << FRACTION_BITS);
    let (significand, power) = match exponent {
        2047 => return FaceWind::NotFinite,
        // Zeros and subnormals: no hidden bit, and the power of exponent 1.
        0 => (fraction, 1 - 1075),
        _ => ((1 << FRACTION_BITS) + fraction, exponent as i32 - 1075),
    };
    // Rounding to the even one treats both signs alike, so the sign can wait;
    // −0 becomes 0 by it.
    match whole(significand, power + SCALE_POWER) {
        None => FaceWind::Beyond,
        Some(size) if negative => FaceWind::Whole(-size),
        Some(size) => FaceWind::Whole(size),
    }
}

/// The whole number nearest significand · 2^power, "the even one at a half".
/// None above the highest power: only normal numbers get there, of which the
/// significand is at least 2^52, so it would be 2^117 or more.
fn whole(significand: u64, power: i32) -> Option<i128> {
    let significand = i128::from(significand);
    if power > HIGHEST_POWER {
        return None;
    }
    if power >= 0 {
        return Some(significand << power);
    }
    let places = power.unsigned_abs();
    if places > MOST_PLACES {
        return Some(0);
    }
    Some(nearest(significand, 1 << places))
}
