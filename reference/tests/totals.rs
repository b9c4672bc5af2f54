//! Totals kept, not summed (request 2026-06): what becomes of the stored total
//! in each call. Quotations are sentences of that request. Who meets refusal 6
//! is in `unsound`.

mod smokes;

use reference::checks::{smoke_part, smoke_total, stored_total};
use reference::{emission, fresh, load, mass, step, total, withdrawal, Shape};
use smokes::smoke;

const SHAPE: Shape = Shape { nx: 2, ny: 1, k: 2 };

/// The stored totals of 2 by 1 with two smokes.
fn stored(field: &[u32]) -> [u32; 2] {
    [field[20], field[41]]
}

/// Two smokes of two elements of ones, which hold 37 each.
fn field() -> Vec<u32> {
    smoke(&[1; 20]).repeat(2)
}

#[test]
fn the_total_stands_after_the_last_element() {
    let mut field = field();
    (field[20], field[41]) = (5, 6);
    assert_eq!(smoke_part(&field, SHAPE, 0), [&[1; 20][..], &[5]].concat());
    assert_eq!(smoke_part(&field, SHAPE, 1), [&[1; 20][..], &[6]].concat());
    assert_eq!(stored_total(&field, SHAPE, 1), 6);
    // The sum doesn't look at it.
    assert_eq!(smoke_total(&field, SHAPE, 1), 74);
}

/// "Fresh sets it to 0"
#[test]
fn fresh_sets_it_to_0() {
    let (mut field, mut wind) = ([9; 43], [9; 4]);
    assert_eq!(fresh(&mut field, &mut wind, 2, 1, 2), Ok(()));
    assert_eq!((&field[..42], field[42]), (&[0; 42][..], 9));
    assert_eq!(total(&field, 2, 1, 2, 1), Ok(0));
    // A field without room for the totals is too short.
    assert_eq!(fresh(&mut field[..41], &mut wind, 2, 1, 2), Err(4));
}

/// "load to the new sum"
#[test]
fn load_sets_it_to_the_new_sum() {
    for old in [0, 74, 99, 100_000_001, u32::MAX] {
        let mut field = field();
        field[41] = old;
        let numbers: Vec<u32> = (1..=18).collect();
        // 1 + 8 + 3 + 16 + 80 + 24 + 7 + 32 + 9, and 9 · 36 more.
        assert_eq!(load(&mut field, &numbers, 2, 1, 2, 1), Ok(()));
        assert_eq!(stored(&field), [74, 180 + 504]);
        // A refused load leaves it.
        assert_eq!(load(&mut field, &[u32::MAX; 18], 2, 1, 2, 1), Err(9));
        assert_eq!(stored(&field), [74, 684]);
        let mut full = [0; 18];
        full[17] = 100_000_000;
        assert_eq!(load(&mut field, &full, 2, 1, 2, 0), Ok(()));
        assert_eq!(stored(&field), [100_000_000, 684]);
    }
}

/// "emission adds q, withdrawal takes q off"
#[test]
fn emission_adds_and_withdrawal_takes_off() {
    let mut field = field();
    assert_eq!(emission(&mut field, 2, 1, 2, 1, 1, 0, 1000), Ok(0));
    assert_eq!(stored(&field), [74, 1074]);
    assert_eq!(withdrawal(&mut field, 2, 1, 2, 1, 0, 0, 37), Ok(0));
    assert_eq!(stored(&field), [74, 1037]);
    assert_eq!(emission(&mut field, 2, 1, 2, 0, 0, 0, 0), Ok(0));
    assert_eq!(withdrawal(&mut field, 2, 1, 2, 0, 1, 0, 1), Ok(0));
    assert_eq!(stored(&field), [73, 1037]);
    assert_eq!(mass(&field, 2, 1, 2, 1, 1, 0), Ok(1037));
    // Refused calls leave it.
    assert_eq!(emission(&mut field, 2, 1, 2, 1, 1, 0, 99_998_964), Err(9));
    assert_eq!(withdrawal(&mut field, 2, 1, 2, 1, 1, 0, 1038), Err(10));
    assert_eq!(stored(&field), [73, 1037]);
    assert_eq!(emission(&mut field, 2, 1, 2, 1, 1, 0, 99_998_963), Ok(0));
    assert_eq!(stored(&field), [73, 100_000_000]);
    assert_eq!(smoke_total(&field, SHAPE, 1), 100_000_000);
}

/// They go by the stored total alone, so one that differs from the sum goes on
/// differing by as much.
#[test]
fn what_differs_goes_on_differing() {
    for differing in [50, 73, 75, 90_000_000] {
        let mut field = field();
        field[20] = differing;
        assert_eq!(emission(&mut field, 2, 1, 2, 0, 0, 0, 1000), Ok(0));
        assert_eq!(stored(&field), [differing + 1000, 74]);
        assert_eq!(withdrawal(&mut field, 2, 1, 2, 0, 0, 0, 1001), Ok(0));
        assert_eq!(stored(&field), [differing - 1, 74]);
        assert_eq!(smoke_total(&field, SHAPE, 0), 73);
    }
}

/// 9 is counted from the stored total, be the sum above or below it.
#[test]
fn over_the_limit_is_by_the_stored_total() {
    let mut above = field();
    above[20] = 99_999_990;
    assert_eq!(emission(&mut above, 2, 1, 2, 0, 0, 0, 11), Err(9));
    assert_eq!(emission(&mut above, 2, 1, 2, 0, 0, 0, u64::MAX), Err(9));
    assert_eq!(emission(&mut above, 2, 1, 2, 0, 0, 0, 10), Ok(0));
    assert_eq!(stored(&above), [100_000_000, 74]);
    assert_eq!(emission(&mut above, 2, 1, 2, 0, 0, 0, 1), Err(9));
    // The other element alone holds more than the limit.
    let mut below = field();
    below[10] = u32::MAX;
    assert_eq!(emission(&mut below, 2, 1, 2, 0, 0, 0, 99_999_927), Err(9));
    assert_eq!(emission(&mut below, 2, 1, 2, 0, 0, 0, 99_999_926), Ok(0));
    assert_eq!(stored(&below), [100_000_000, 74]);
    assert_eq!(mass(&below, 2, 1, 2, 0, 0, 0), Ok(99_999_963));
}

/// "a step leaves it"
#[test]
fn a_step_leaves_it() {
    let mut field = smoke(&[[0, 0, 40, 0, 0, 40, 0, 0, 40, 0], [0; 10]].concat()).repeat(2);
    let other = field[21..].to_vec();
    let (mut report, mut work) = ([0; 4], [0; 128]);
    let wind = [1024, 1024, 0, 0];
    let answer = step(&mut field, &wind, &mut report, &mut work, 2, 1, 2, 0);
    assert_eq!((answer, report), (Ok(144), [217, -22, 0, 0]));
    let stepped = smoke(&[
        0, 0, 0, 0, 0, 0, 0, 0, 0, 1, 22, 3, 0, 22, 3, 0, 22, 3, 0, 35,
    ]);
    assert_eq!(stepped[20], 240);
    assert_eq!(field, [stepped, other].concat());
}

/// The total's reading answers the stored total, whatever the elements hold.
#[test]
fn the_total_is_the_stored_one() {
    for number in [0, 1, 73, 75, 100_000_000] {
        for elements in [[0; 20], [1; 20], [u32::MAX; 20]] {
            let field = [&[u32::MAX; 21][..], &elements, &[number]].concat();
            assert_eq!(total(&field, 2, 1, 2, 1), Ok(number.into()));
        }
    }
}
