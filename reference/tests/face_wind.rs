//! From 64 bits to C. Only these tests use floats: the numbers are easier to
//! read so, and f64's own arithmetic is one of the two other ways to C.

mod rounding;

use reference::face_wind;
use reference::import_numbers::{exact, EDGE};
use reference::rng::Rng;
use reference::FaceWind::{self, Beyond, NotFinite, Whole};
use rounding::to_nearest_even;

const SIGN: u64 = 1 << 63;

/// The number x / 4096; dividing by 4096 is exact for all x given here.
fn of(x: f64) -> FaceWind {
    face_wind((x / 4096.0).to_bits())
}

/// The neighbours of x / 4096, the one nearer to zero first.
fn beside(x: f64) -> (FaceWind, FaceWind) {
    let bits = (x / 4096.0).to_bits();
    (face_wind(bits - 1), face_wind(bits + 1))
}

#[test]
fn whole_winds_stay() {
    for c in -3000..=3000 {
        assert_eq!(of(f64::from(c)), Whole(i128::from(c)));
    }
}

#[test]
fn halves_go_to_the_even_one() {
    for (x, c) in [
        (0.5, 0),
        (1.5, 2),
        (2.5, 2),
        (3.5, 4),
        (1022.5, 1022),
        (1023.5, 1024),
        (1024.5, 1024),
        (1025.5, 1026),
    ] {
        assert_eq!(of(x), Whole(c));
        assert_eq!(of(-x), Whole(-c));
    }
}

#[test]
fn beside_a_half_the_nearest_one_is_taken() {
    for below in 0..2000 {
        let x = f64::from(below) + 0.5;
        let c = i128::from(below);
        assert_eq!(beside(x), (Whole(c), Whole(c + 1)));
        assert_eq!(beside(-x), (Whole(-c), Whole(-c - 1)));
    }
}

#[test]
fn zeros_and_subnormals_are_0() {
    for bits in [0, 1, 2, 1 << 51, (1 << 52) - 1, 1 << 52] {
        assert_eq!(face_wind(bits), Whole(0));
        assert_eq!(face_wind(SIGN | bits), Whole(0));
    }
    assert_eq!(of(-0.0), Whole(0));
}

#[test]
fn the_top_exponent_is_not_finite() {
    for payload in [0, 1, 2, 1 << 51, (1 << 51) + 1, (1 << 52) - 1] {
        assert_eq!(face_wind((2047 << 52) + payload), NotFinite);
        assert_eq!(face_wind(SIGN | ((2047 << 52) + payload)), NotFinite);
    }
}

#[test]
fn large_ones_are_exact_and_then_beyond() {
    // C = 2^p comes from 2^(p − 12).
    for p in 0..117 {
        assert_eq!(face_wind(exact(1, p - 12)), Whole(1 << p));
        assert_eq!(face_wind(SIGN | exact(1, p - 12)), Whole(-1 << p));
    }
    for p in 117..=1023 + 12 {
        assert_eq!(face_wind(exact(1, p - 12)), Beyond);
        assert_eq!(face_wind(SIGN | exact(1, p - 12)), Beyond);
    }
    assert_eq!(face_wind(f64::MAX.to_bits()), Beyond);
    assert_eq!(face_wind(f64::MIN.to_bits()), Beyond);
    // The last exponent with all bits of the fraction.
    let full = (1_u64 << 53) - 1;
    assert_eq!(face_wind(exact(full, 52)), Whole(i128::from(full) << 64));
    assert_eq!(face_wind(exact(full, 53)), Beyond);
}

#[test]
fn numbers_are_built_as_floats_are() {
    assert_eq!(EDGE, (1024.5_f64 / 4096.0).to_bits());
    assert_eq!(exact(0, -12), 0);
    assert_eq!(exact(1, 1023), 2_f64.powi(1023).to_bits());
    assert_eq!(exact(1, -1022), f64::MIN_POSITIVE.to_bits());
    for whole in 1..5000_u32 {
        let number = f64::from(whole);
        assert_eq!(exact(whole.into(), -12), (number / 4096.0).to_bits());
        assert_eq!(exact(whole.into(), -13), (number / 8192.0).to_bits());
    }
}

/// First other way: f64's own arithmetic. 4096 times a number is exact or,
/// far above all winds, an infinity.
fn by_floats(bits: u64) -> FaceWind {
    let number = f64::from_bits(bits);
    if !number.is_finite() {
        return NotFinite;
    }
    let c = to_nearest_even(number * 4096.0);
    if c.abs() >= 2_f64.powi(117) {
        return Beyond;
    }
    Whole(c as i128)
}

#[test]
fn every_exponent_as_floats_have_it() {
    let mut rng = Rng::new(1);
    let top = 1_u64 << 51;
    for exponent in 0..2048_u64 {
        let mut fractions = vec![0, 1, 2, top - 1, top, top + 1, 2 * top - 2, 2 * top - 1];
        // Every single bit, so that each place of the half is met.
        fractions.extend((0..52).map(|bit| 1 << bit));
        fractions.extend((0..100).map(|_| rng.below(2 * top)));
        for fraction in fractions {
            let bits = (exponent << 52) + fraction;
            assert_eq!(face_wind(bits), by_floats(bits), "{bits:x}");
            assert_eq!(face_wind(SIGN | bits), by_floats(SIGN | bits), "{bits:x}");
        }
    }
}

#[test]
fn any_bits_as_floats_have_it() {
    let mut rng = Rng::new(2);
    for _ in 0..1_000_000 {
        let bits = rng.draw();
        assert_eq!(face_wind(bits), by_floats(bits), "{bits:x}");
    }
}

/// Second other way: what C has to be, in naturals. The number is m · 2^e,
/// and 4096 times it is m / 2^d with d = −e − 12. C is nearest where
/// 2·|m − C·2^d| ≤ 2^d, and where both are equal C must be even. Only for
/// exponents with d from 1 to 70, so that all products fit.
fn is_nearest(bits: u64, c: i128) -> bool {
    let (exponent, fraction) = ((bits >> 52) & 2047, bits & ((1 << 52) - 1));
    let m = u128::from(fraction | (1 << 52));
    let d = 1075 - 12 - exponent;
    assert!((1..=70).contains(&d));
    let sign_agrees = c == 0 || (c < 0) == (bits >> 63 == 1);
    let distance = m.abs_diff(c.unsigned_abs() << d);
    let nearest = 2 * distance < 1 << d;
    let half = 2 * distance == 1 << d;
    sign_agrees && (nearest || half && c % 2 == 0)
}

/// Bits whose exponent has d from 1 to 70: C from 0 to 2^52.
fn near_the_range(rng: &mut Rng) -> u64 {
    let exponent = match rng.once_in(4) {
        true => 1063 - 1 - rng.below(70),
        // Numbers from 2^−15 to below 1/2.
        false => 1008 + rng.below(14),
    };
    // A fraction of few high bits is often a whole or a half.
    let zeros = 40 + rng.below(12);
    let few = rng.below(1 << (52 - zeros)) << zeros;
    let fraction = match rng.below(4) {
        0 => few,
        1 => few.saturating_sub(1),
        2 => few + 1,
        _ => rng.below(1 << 52),
    };
    rng.pick(&[0, SIGN]) | exponent << 52 | fraction
}

#[test]
fn the_nearest_in_naturals() {
    let mut rng = Rng::new(3);
    let (mut halves, mut small) = (0, 0);
    for _ in 0..600_000 {
        let bits = near_the_range(&mut rng);
        let c = match face_wind(bits) {
            Whole(c) => c,
            _ => panic!("{bits:x} has a C"),
        };
        assert!(is_nearest(bits, c), "{bits:x} {c}");
        // No other number could pass in its place.
        assert!(!is_nearest(bits, c + 1) && !is_nearest(bits, c - 1));
        let x = f64::from_bits(bits) * 8192.0;
        halves += u32::from(x.fract() == 0.0 && x % 2.0 != 0.0);
        small += u32::from((-1024..=1024).contains(&c));
    }
    assert!(halves > 10_000 && small > 100_000, "{halves} {small}");
}
