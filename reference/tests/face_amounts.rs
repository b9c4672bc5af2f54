//! Face amounts to the nearest (request 2026-02): halves, many products, any
//! divisor, and steps whose reports show the rule.

mod smokes;

use reference::flux::{cut, donor, face_amount};
use reference::nearest::nearest;
use reference::rng::Rng;
use reference::{step, Shape};
use smokes::smoke;

/// Document 02, 2026-02: "to the nearest whole number, an exact half to the
/// even one", told without a division: twice the distance from divisor · g is
/// at most the divisor, and where it equals the divisor g is even.
fn is_nearest(number: i128, divisor: i128, g: i128) -> bool {
    let twice = 2 * (number - divisor * g).abs();
    twice < divisor || twice == divisor && g % 2 == 0
}

/// G under every pair of signs.
fn by_signs(c: i128, sum: i128, g: i128) {
    assert_eq!(face_amount(c, sum), g, "{c} {sum}");
    assert_eq!(face_amount(-c, -sum), g, "{c} {sum}");
    assert_eq!(face_amount(-c, sum), -g, "{c} {sum}");
    assert_eq!(face_amount(c, -sum), -g, "{c} {sum}");
}

#[test]
fn halves_go_to_the_even_one() {
    // 0.5, 1.5, 2.5, 3.5 and, far up, 999,999.5 and 1,000,000.5.
    for (sum, g) in [
        (2048, 0),
        (6144, 2),
        (10_240, 2),
        (14_336, 4),
        (4096 * 999_999 + 2048, 1_000_000),
        (4096 * 1_000_000 + 2048, 1_000_000),
    ] {
        by_signs(1, sum, g);
    }
}

/// The half comes of the whole product, with C other than ±1.
#[test]
fn halves_of_other_winds() {
    for (c, sum, g) in [
        // 3 · 0.5 = 1.5, 5 · 0.5 = 2.5, 3 · 1.5 = 4.5
        (3, 2048, 2),
        (5, 2048, 2),
        (3, 6144, 4),
        // 64 · 32 = 2048, 64 · 96 = 6144
        (64, 32, 0),
        (64, 96, 2),
        // 1024 / 4096 = 1/4: 0.5, 1.5, 2.5
        (1024, 2, 0),
        (1024, 6, 2),
        (1024, 10, 2),
        // 700 · 512 / 4096 = 87.5, three times as much is 262.5
        (700, 512, 88),
        (700, 1536, 262),
    ] {
        assert_eq!(2 * c * sum % 4096, 0);
        assert_eq!(2 * c * sum / 4096 % 2, 1);
        by_signs(c, sum, g);
    }
}

#[test]
fn beside_a_half_the_nearest_one_is_taken() {
    for below in 0..2000 {
        let half = 4096 * below + 2048;
        by_signs(1, half - 1, below);
        by_signs(1, half + 1, below + 1);
        // With C = 3 the product is three units beside a half, so it is safe
        // to add one half and take the floor.
        by_signs(3, half - 1, (3 * (half - 1) + 2048) / 4096);
        by_signs(3, half + 1, (3 * (half + 1) + 2048) / 4096);
    }
}

#[test]
fn the_whole_product_is_divided() {
    // Each sum alone would give 0, so dividing it first would give 0.
    by_signs(2, 2048, 1);
    by_signs(1024, 3, 1);
    by_signs(1024, 4, 1);
    by_signs(1023, 2047, 511);
    for c in -1024..=1024 {
        assert_eq!(face_amount(c, 0), 0);
        assert_eq!(face_amount(c, 4096), c);
    }
    assert_eq!(face_amount(0, 4_000_000_001), 0);
}

/// Below a half and at it nothing leaves, so there is no donor; a little more
/// has one, by the sign of G.
#[test]
fn a_half_has_no_donor() {
    let shape = Shape { nx: 3, ny: 1, k: 1 };
    let giver = |c, sum| donor(shape, 1, face_amount(c, sum));
    for (c, sum) in [(1, 2048), (1, -2048), (-1, 2048), (-1, -2048)] {
        assert_eq!(giver(c, sum), None);
    }
    for (c, sum, element) in [(1, 2049, 1), (1, -2049, 2), (-1, 2049, 2), (-1, -2049, 1)] {
        assert_eq!(giver(c, sum), Some(element));
    }
}

/// A sum of up to 40 bits, or one made of it whose product is at or beside a
/// half.
fn face_sum(rng: &mut Rng, c: i128) -> i128 {
    let bits = 1 + rng.below(40);
    let sum = i128::from(rng.below(1 << bits)) - (1 << (bits - 1));
    // With 2^n the highest power of two in C, an odd number times 2048 / 2^n
    // makes a half of the product.
    let share = 2048 >> c.trailing_zeros().min(11);
    match rng.below(4) {
        0 => sum,
        1 => sum / share * share,
        _ => (2 * sum + 1) * share + i128::from(rng.below(3)) - 1,
    }
}

#[test]
fn many_products() {
    let mut rng = Rng::new(4);
    // Halves by the sign of the product and by whether the floor is odd.
    let mut halves = [[0; 2]; 2];
    for _ in 0..1_000_000 {
        let c = i128::from(rng.wind());
        let sum = face_sum(&mut rng, c);
        let (product, g) = (c * sum, face_amount(c, sum));
        assert!(is_nearest(product, 4096, g), "{c} {sum} {g}");
        // No other number could pass in its place.
        assert!(!is_nearest(product, 4096, g + 1) && !is_nearest(product, 4096, g - 1));
        if product.rem_euclid(4096) == 2048 {
            let odd = product.div_euclid(4096).rem_euclid(2) as usize;
            halves[usize::from(product < 0)][odd] += 1;
        }
    }
    assert!(
        halves.iter().flatten().all(|&met| met > 10_000),
        "{halves:?}"
    );
}

#[test]
fn any_divisor() {
    for divisor in 1..=80 {
        for number in -500..=500 {
            let g = nearest(number, divisor);
            assert!(is_nearest(number, divisor, g), "{number} {divisor} {g}");
            assert_eq!(nearest(-number, divisor), -g);
        }
    }
    let (least, most) = (i128::MIN, i128::MAX);
    assert_eq!((nearest(least, 1), nearest(most, 1)), (least, most));
    assert_eq!((nearest(least, most), nearest(most, most)), (-1, 1));
    // (2^127 − 1) / 2 is a half below 2^126.
    assert_eq!(nearest(most, 2), 1 << 126);
    assert_eq!(nearest(-most, 2), -1 << 126);
}

/// An even field in an even wind: each face sum is 36 times the value, so with
/// C = 512 an amount is 4.5 times the value, a half where the value is odd.
#[test]
fn halves_reach_the_report() {
    for (value, amount) in [(1, 4), (2, 9), (3, 14), (5, 22), (7, 32), (9, 40)] {
        let mut field = smoke(&[[value; 9].as_slice(), &[5]].concat().repeat(4));
        let before = field.clone();
        let faces = [512, 512, 512, 512, -512, -512, -512, -512];
        let (mut report, mut work) = ([99; 8], [0; 64 * 4]);
        let answer = step(&mut field, &faces, &mut report, &mut work, 2, 2, 1, 0);
        assert_eq!(answer, Ok(0));
        assert_eq!(field, before);
        assert_eq!(report, [[amount; 4], [-amount; 4]].concat()[..]);
    }
}

/// Document 02, 2026-02: "The cut in the flux correction still uses floor."
#[test]
fn the_cut_keeps_its_floor() {
    // 7 · 20 / 21 = 6.67, 3 · 3 / 6 = 1.5, 1 · 2 / 3 = 0.67
    for (g, mass, out, left) in [(7, 20, 21, 6), (3, 3, 6, 1), (1, 2, 3, 0)] {
        assert_eq!(cut(g, mass, out), left);
        assert_eq!(cut(-g, mass, out), -left);
    }
}
