//! The wind import: every answer, the order of the checks, each kind, and
//! what is left alone. Floats are used to write numbers down readably.

use reference::import;

const HUGE: usize = usize::MAX;
const NAN: f64 = f64::NAN;
const INF: f64 = f64::INFINITY;

/// Becomes C = 1025, which is beyond.
const OVER: f64 = 1025.0 / 4096.0;

/// The number that becomes c.
fn of(c: f64) -> f64 {
    c / 4096.0
}

/// The neighbour of a number that isn't zero, away from zero. (f64's own
/// functions for neighbours are younger than Rust 1.63.)
fn outward(x: f64) -> f64 {
    f64::from_bits(x.to_bits() + 1)
}

/// The neighbour toward zero.
fn inward(x: f64) -> f64 {
    f64::from_bits(x.to_bits() - 1)
}

fn calm() -> Vec<u8> {
    vec![0]
}

fn both(east: f64, north: f64) -> Vec<u8> {
    [&[1][..], &east.to_le_bytes(), &north.to_le_bytes()].concat()
}

fn east_only(east: f64) -> Vec<u8> {
    [&[2][..], &east.to_le_bytes()].concat()
}

/// What one element's import answers, and the east and north wind after it.
/// Refused ones must leave the old winds.
fn one(record: &[u8]) -> Result<(i16, i16), u8> {
    let mut wind = [77, -78, 2000];
    let answer = import(&mut wind, record, 1, 1, 1);
    assert_eq!(wind[2], 2000);
    if answer.is_err() {
        assert_eq!(wind, [77, -78, 2000]);
    }
    answer.map(|()| (wind[0], wind[1]))
}

/// The answer for three elements in a row.
fn three(records: [Vec<u8>; 3]) -> Result<(), u8> {
    let mut wind = [5; 6];
    let answer = import(&mut wind, &records.concat(), 3, 1, 1);
    if answer.is_err() {
        assert_eq!(wind, [5; 6]);
    }
    answer
}

#[test]
fn each_kind() {
    assert_eq!(one(&calm()), Ok((0, 0)));
    assert_eq!(one(&both(of(3.0), of(-1024.0))), Ok((3, -1024)));
    // Kind 2 writes a zero north wind over the old one.
    assert_eq!(one(&east_only(of(-9.0))), Ok((-9, 0)));
}

#[test]
fn numbers_are_little_endian() {
    assert_eq!(one(&[2, 0, 0, 0, 0, 0, 0, 208, 63]), Ok((1024, 0)));
    assert_eq!(one(&[2, 63, 208, 0, 0, 0, 0, 0, 0]), Ok((0, 0)));
    let bytes = [1, 0, 0, 0, 0, 0, 0, 208, 191, 0, 0, 0, 0, 0, 0, 48, 63];
    assert_eq!(one(&bytes), Ok((-1024, 1)));
}

#[test]
fn grid_order_is_j_outer() {
    let records = [
        both(of(1.0), of(11.0)),
        east_only(of(2.0)),
        both(of(3.0), of(13.0)),
        calm(),
        both(of(5.0), of(15.0)),
        both(of(6.0), of(-16.0)),
    ];
    let mut wind = [99; 14];
    assert_eq!(import(&mut wind, &records.concat(), 3, 2, 8), Ok(()));
    assert_eq!(wind, [1, 2, 3, 0, 5, 6, 11, 0, 13, 0, 15, -16, 99, 99]);
    // The same records on 2 by 3: only which element is which changes.
    let mut turned = [99; 12];
    assert_eq!(import(&mut turned, &records.concat(), 2, 3, 1), Ok(()));
    assert_eq!(turned, wind[..12]);
}

#[test]
fn old_winds_are_not_looked_at() {
    let mut wind = [i16::MIN, 1025, i16::MAX];
    assert_eq!(import(&mut wind, &east_only(of(1.0)), 1, 1, 1), Ok(()));
    assert_eq!(wind, [1, 0, i16::MAX]);
}

#[test]
fn halves_and_the_edge() {
    for (x, c) in [(0.5, 0), (1.5, 2), (2.5, 2), (1023.5, 1024), (1024.5, 1024)] {
        assert_eq!(one(&both(of(x), of(-x))), Ok((c, -c)));
        assert_eq!(one(&both(of(-x), of(x))), Ok((-c, c)));
    }
    let above = outward(of(1024.5));
    for number in [above, -above, OVER, -OVER, 0.5, -1.0, 16.0, -16.0] {
        assert_eq!(one(&east_only(number)), Err(5));
        assert_eq!(one(&both(number, 0.0)), Err(5));
        assert_eq!(one(&both(0.0, number)), Err(5));
    }
    assert_eq!(one(&east_only(inward(of(1024.5)))), Ok((1024, 0)));
    assert_eq!(one(&east_only(inward(of(-1024.5)))), Ok((-1024, 0)));
}

#[test]
fn the_smallest_are_still_air() {
    let smallest = f64::from_bits(1);
    for number in [0.0, smallest, inward(f64::MIN_POSITIVE), 1e-300, 1e-5] {
        assert_eq!(one(&both(number, -number)), Ok((0, 0)));
        assert_eq!(one(&east_only(-number)), Ok((0, 0)));
    }
}

#[test]
fn the_largest_are_5() {
    let large = 2_f64.powi(1023);
    for number in [large, -large, f64::MAX, f64::MIN, 2_f64.powi(52), 1e30] {
        assert_eq!(one(&east_only(number)), Err(5));
        assert_eq!(one(&both(0.0, number)), Err(5));
    }
    // Winds that an i16, i32, i64 or i128 would take for 0 or 1.
    for number in [
        of(65536.0),
        of(65537.0),
        of(2_f64.powi(32)),
        of(4294967297.0),
    ] {
        assert_eq!(one(&east_only(number)), Err(5));
    }
    for power in [64, 128, 256] {
        assert_eq!(one(&east_only(of(2_f64.powi(power)))), Err(5));
    }
}

#[test]
fn not_finite_is_12() {
    let odd_nan = f64::from_bits((2047 << 52) + 1);
    for number in [NAN, -NAN, INF, -INF, odd_nan, -odd_nan] {
        assert_eq!(one(&east_only(number)), Err(12));
        assert_eq!(one(&both(number, 0.0)), Err(12));
        assert_eq!(one(&both(0.0, number)), Err(12));
    }
}

#[test]
fn shapes_are_2_before_all() {
    for (nx, ny, k) in [
        (0, 1, 1),
        (1, 0, 1),
        (1, 1, 0),
        (65, 1, 1),
        (1, 65, 1),
        (1, 1, 9),
        (HUGE, HUGE, HUGE),
    ] {
        assert_eq!(import(&mut [], &[], nx, ny, k), Err(2));
        assert_eq!(import(&mut [0; 2], &[3], nx, ny, k), Err(2));
    }
}

#[test]
fn a_short_wind_buffer_is_4_before_the_records() {
    let mut wind = [7; 4];
    for records in [vec![], vec![3], east_only(NAN), vec![0, 0]] {
        assert_eq!(import(&mut wind[..3], &records, 2, 1, 1), Err(4));
        assert_eq!(import(&mut [], &records, 2, 1, 1), Err(4));
    }
    // Short records are no short slice.
    assert_eq!(import(&mut wind, &[], 2, 1, 1), Err(11));
    assert_eq!(wind, [7; 4]);
    assert_eq!(import(&mut wind, &[0, 0], 2, 1, 1), Ok(()));
    assert_eq!(wind, [0; 4]);
}

#[test]
fn unknown_kinds_are_11() {
    for kind in 3..=255 {
        let mut record = both(NAN, OVER);
        record[0] = kind;
        assert_eq!(one(&record), Err(11));
        assert_eq!(one(&[kind]), Err(11));
        assert_eq!(three([calm(), record, calm()]), Err(11));
    }
}

#[test]
fn every_missing_byte_is_11() {
    for record in [calm(), both(of(1.0), of(2.0)), east_only(of(1.0))] {
        assert!(one(&record).is_ok());
        for kept in 0..record.len() {
            let cut = record[..kept].to_vec();
            assert_eq!(one(&cut), Err(11));
            assert_eq!(three([record.clone(), calm(), cut]), Err(11));
        }
        assert_eq!(three([record.clone(), record.clone(), vec![]]), Err(11));
    }
}

#[test]
fn bytes_left_over_are_11() {
    for record in [calm(), both(of(1.0), of(2.0)), east_only(of(1.0))] {
        for more in [vec![0], vec![9], calm(), both(0.0, 0.0), vec![0; 40]] {
            assert_eq!(one(&[record.clone(), more.clone()].concat()), Err(11));
            let last = [record.clone(), more].concat();
            assert_eq!(three([calm(), record.clone(), last]), Err(11));
        }
    }
}

#[test]
fn within_a_record_11_then_12_then_5() {
    // Both numbers are looked at for 12 before either for 5.
    assert_eq!(one(&both(OVER, NAN)), Err(12));
    assert_eq!(one(&both(INF, OVER)), Err(12));
    // A record that isn't whole is not looked into.
    for east in [NAN, INF, OVER] {
        assert_eq!(one(&both(east, 0.0)[..16]), Err(11));
        assert_eq!(one(&both(east, 0.0)[..9]), Err(11));
        assert_eq!(one(&east_only(east)[..8]), Err(11));
    }
}

#[test]
fn an_earlier_record_comes_first() {
    let faults = [
        (5, both(0.0, OVER)),
        (12, both(NAN, 0.0)),
        (11, vec![3]),
        (5, east_only(-OVER)),
        (12, east_only(-INF)),
        (11, vec![255]),
    ];
    for (number, fault) in &faults {
        for (_, later) in &faults {
            let [a, b] = [fault.clone(), later.clone()];
            assert_eq!(three([a.clone(), b.clone(), calm()]), Err(*number));
            assert_eq!(three([a.clone(), calm(), b.clone()]), Err(*number));
            assert_eq!(three([calm(), a, b]), Err(*number));
        }
        // A later record that is missing, or bytes left over, come later.
        assert_eq!(three([fault.clone(), vec![], vec![]]), Err(*number));
        assert_eq!(three([calm(), fault.clone(), vec![]]), Err(*number));
        let overlong = [fault.clone(), vec![0]].concat();
        assert_eq!(three([calm(), calm(), overlong]), Err(*number));
    }
}

#[test]
fn good_records_before_a_fault_are_not_written() {
    let good = both(of(1.0), of(2.0));
    for (number, last) in [(5, both(OVER, 0.0)), (12, east_only(NAN)), (11, vec![1])] {
        assert_eq!(three([good.clone(), good.clone(), last]), Err(number));
    }
    assert_eq!(three([good.clone(), good.clone(), good]), Ok(()));
}

#[test]
fn the_largest_grid() {
    let record = both(of(1024.0), of(-1024.0));
    let mut wind = vec![3; 2 * 4096 + 1];
    let records = record.repeat(4096);
    assert_eq!(import(&mut wind, &records[1..], 64, 64, 8), Err(11));
    assert_eq!(wind, vec![3; 2 * 4096 + 1]);
    assert_eq!(import(&mut wind, &records, 64, 64, 8), Ok(()));
    let all = [vec![1024; 4096], vec![-1024; 4096], vec![3]].concat();
    assert_eq!(wind, all);
}
