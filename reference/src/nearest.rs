//! Division to the nearest whole number, for the amounts of faces (request
//! 2026-02) and the winds of records (request 2026-01).

use std::cmp::Ordering;

/// The whole number nearest number / divisor, "an exact half to the even one"
/// (document 02, 2026-02). The quotient lies between its floor and the whole
/// number above, also where it is negative, and the nearer of the two is
/// taken. Both distances are in units of 1 / divisor.
pub fn nearest(number: i128, divisor: i128) -> i128 {
    debug_assert!(divisor > 0);
    let below = number.div_euclid(divisor);
    let from_below = number.rem_euclid(divisor);
    let from_above = divisor - from_below;
    match from_below.cmp(&from_above) {
        Ordering::Less => below,
        Ordering::Greater => below + 1,
        // Of two neighbours one is even: an odd floor is one below it.
        Ordering::Equal => below + below.rem_euclid(2),
    }
}
