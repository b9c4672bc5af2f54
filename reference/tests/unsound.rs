//! Who meets refusal 6 since request 2026-06. Quotations are sentences of that
//! request. The field is 2 by 1 with two smokes.

mod smokes;

use reference::file::encoded;
use reference::{emission, load, map, mass, read_file, step, total, withdrawal, write_file, Shape};
use smokes::smoke;

const HUGE: usize = usize::MAX;
const SHAPE: Shape = Shape { nx: 2, ny: 1, k: 2 };

type Answer = Result<u64, u8>;

/// Smoke 1 with elements of ones, which hold 37 each, and other numbers at
/// some places; place 20 is the stored total, at first 74. Smoke 0 is all
/// unsound.
fn field(changes: &[(usize, u32)]) -> Vec<u32> {
    let mut part = smoke(&[1; 20]);
    for &(at, number) in changes {
        part[at] = number;
    }
    [vec![u32::MAX; 21], part].concat()
}

/// The answers of an emission of q, a withdrawal of q and the element's M.
/// Where one is refused the field is left alone.
fn answers(field: &[u32], smoke: usize, (i, j): (usize, usize), q: u64) -> [Answer; 3] {
    let (mut more, mut less) = (field.to_vec(), field.to_vec());
    let emitted = emission(&mut more, 2, 1, 2, smoke, i, j, q);
    let withdrawn = withdrawal(&mut less, 2, 1, 2, smoke, i, j, q);
    assert!(emitted.is_ok() || more == field);
    assert!(withdrawn.is_ok() || less == field);
    [emitted, withdrawn, mass(field, 2, 1, 2, smoke, i, j)]
}

fn all(number: u8) -> [Answer; 3] {
    [Err(number); 3]
}

/// An emission and a withdrawal are accepted, and the element holds so much.
fn good(held: u64) -> [Answer; 3] {
    [Ok(0), Ok(0), Ok(held)]
}

/// "They give 6 for that element's remainder above 35"
#[test]
fn a_remainder_above_35() {
    for (at, i) in [(9, 0), (19, 1)] {
        let changed = |rest| field(&[(at, rest), (20, 100_000_000)]);
        assert_eq!(answers(&changed(35), 1, (i, 0), 0), good(71));
        for rest in [36, 37, 255] {
            assert_eq!(answers(&changed(rest), 1, (i, 0), 0), all(6));
            assert_eq!(answers(&changed(rest), 1, (i, 0), u64::MAX), all(6));
            // With the stored total as the sum it is the remainder still.
            let sound = [(at, rest), (20, 73 + rest)];
            assert_eq!(answers(&field(&sound), 1, (i, 0), 1), all(6));
        }
    }
}

/// "a stored total above 100,000,000", also where the element is off the grid.
#[test]
fn a_stored_total_above_the_limit() {
    for place in [(0, 0), (1, 0), (2, 0), (0, 1), (HUGE, HUGE)] {
        for stored in [100_000_001, 1 << 31, u32::MAX] {
            let changed = field(&[(20, stored)]);
            assert_eq!(answers(&changed, 1, place, 0), all(6));
            assert_eq!(answers(&changed, 1, place, u64::MAX), all(6));
        }
    }
    // At the limit nothing is 6.
    let full = field(&[(20, 100_000_000)]);
    assert_eq!(answers(&full, 1, (0, 0), 0), good(37));
    assert_eq!(answers(&full, 1, (0, 0), 1), [Err(9), Ok(0), Ok(37)]);
    assert_eq!(answers(&full, 1, (2, 0), 1), all(8));
}

/// "or an element holding more than it"
#[test]
fn an_element_holding_more_than_the_stored_total() {
    for (stored, answer) in [(0, all(6)), (36, all(6)), (37, good(37)), (38, good(37))] {
        assert_eq!(answers(&field(&[(20, stored)]), 1, (0, 0), 1), answer);
        assert_eq!(answers(&field(&[(20, stored)]), 1, (1, 0), 1), answer);
    }
    // By its values, even where their sum passes 2^32 and comes back to 37.
    for changes in [[(0, 39)], [(4, 4)], [(0, u32::MAX)], [(1, 1 + (1 << 30))]] {
        assert_eq!(answers(&field(&changes), 1, (0, 0), 1), all(6));
        assert_eq!(answers(&field(&changes), 1, (1, 0), 1), good(37));
    }
    assert_eq!(answers(&field(&[(0, 38)]), 1, (0, 0), 1), good(74));
    // Both faults of the element are one refusal.
    assert_eq!(answers(&field(&[(9, u32::MAX)]), 1, (0, 0), 1), all(6));
}

/// They "look at the named element and the stored total only": neither another
/// element nor the sum matters, and no other smoke.
#[test]
fn nothing_else_is_looked_at() {
    for changes in [
        &[(19, 36)][..],
        &[(19, u32::MAX)],
        &[(10, u32::MAX)],
        &[(10, 2)],
        &[(20, 73)],
        &[(20, 75)],
        &[(20, 99_999_999)],
        &[(10, u32::MAX), (14, u32::MAX), (19, u32::MAX), (20, 37)],
    ] {
        assert_eq!(answers(&field(changes), 1, (0, 0), 1), good(37));
    }
}

/// "one off the grid has no numbers", so it meets 8; a smoke number not below
/// K meets 7 before.
#[test]
fn off_the_grid_is_8_and_no_smoke_7() {
    let bad = [(9, 36), (19, u32::MAX), (0, u32::MAX)];
    for stored in [0, 74, 100_000_000] {
        let changed = field(&[&bad[..], &[(20, stored)]].concat());
        for place in [(2, 0), (0, 1), (2, 1), (HUGE, 0), (0, HUGE), (HUGE, HUGE)] {
            assert_eq!(answers(&changed, 1, place, 0), all(8));
            assert_eq!(answers(&changed, 1, place, u64::MAX), all(8));
        }
    }
    for place in [(0, 0), (2, 0), (HUGE, HUGE)] {
        for smoke in [2, 3, HUGE] {
            assert_eq!(answers(&[u32::MAX; 42], smoke, place, 1), all(7));
            assert_eq!(answers(&[u32::MAX; 64], smoke, place, 1), all(7));
        }
    }
    assert_eq!(answers(&[u32::MAX; 41], 1, (0, 0), 1), all(4));
}

/// The total's reading gives 6 for the stored total alone.
#[test]
fn the_totals_reading() {
    let read = |changes: &[(usize, u32)]| total(&field(changes), 2, 1, 2, 1);
    assert_eq!(read(&[(9, 36), (10, u32::MAX), (20, 5)]), Ok(5));
    assert_eq!(read(&[(20, 100_000_000)]), Ok(100_000_000));
    assert_eq!(read(&[(20, 100_000_001)]), Err(6));
    assert_eq!(read(&[(20, u32::MAX)]), Err(6));
    assert_eq!(total(&field(&[]), 2, 1, 2, 0), Err(6));
    assert_eq!(total(&field(&[]), 2, 1, 2, 2), Err(7));
}

/// The answers of a step, the printed map, file writing and file reading. The
/// last two look at both smokes, so smoke 0 is made sound for all.
fn summing(changes: &[(usize, u32)]) -> [Result<(), u8>; 4] {
    let mut field = field(changes);
    field[..21].copy_from_slice(&smoke(&[1; 20]));
    let before = field.clone();
    let (mut report, mut work) = ([3; 4], [3; 128]);
    let stepped = step(&mut field, &[0; 4], &mut report, &mut work, 2, 1, 2, 1);
    let mut page = [3; 222];
    let printed = map(&mut page, &before, 2, 1, 2, 1);
    let mut out = [3; 200];
    let written = write_file(&before, &[0; 4], &mut out, 2, 1, 2);
    let (mut read_field, mut wind) = ([3; 42], [3; 4]);
    let file = encoded(&before, &[0; 4], SHAPE);
    let read = read_file(&file, &mut read_field, &mut wind);
    if stepped.is_err() {
        assert_eq!((&field, report, work), (&before, [3; 4], [3; 128]));
        assert_eq!((page, out), ([3; 222], [3; 200]));
        assert_eq!((read_field, wind), ([3; 42], [3; 4]));
    }
    let [written, read] = [written.map(drop), read.map(drop)];
    [stepped.map(drop), printed.map(drop), written, read]
}

/// "Step, the printed map, file reading and file writing still sum, and give 6
/// where sum and stored total differ."
#[test]
fn the_calls_that_sum() {
    for (changes, answer) in [
        (&[][..], Ok(())),
        // By a remainder alone.
        (&[(9, 35), (20, 108)], Ok(())),
        (&[(9, 36), (20, 109)], Err(6)),
        (&[(19, 36), (20, 109)], Err(6)),
        // By the sum alone.
        (&[(10, 99_999_927), (20, 100_000_000)], Ok(())),
        (&[(10, 99_999_928), (20, 100_000_001)], Err(6)),
        (&[(0, u32::MAX - 73), (20, u32::MAX)], Err(6)),
        // By a difference alone.
        (&[(20, 73)], Err(6)),
        (&[(20, 75)], Err(6)),
        (&[(20, 0)], Err(6)),
        (&[(20, 100_000_000)], Err(6)),
        (&[(10, 2)], Err(6)),
        (&[(10, 0)], Err(6)),
        // By a stored total above the limit, or a sum that passes 2^32.
        (&[(20, 100_000_001)], Err(6)),
        (&[(1, 1 + (1 << 30))], Err(6)),
    ] {
        assert_eq!(summing(changes), [answer; 4], "{changes:?}");
    }
}

/// A load doesn't look at the old numbers, the stored total among them.
#[test]
fn a_load_mends_every_smoke() {
    let mut field = vec![u32::MAX; 42];
    for smoke in 0..2 {
        assert_eq!(load(&mut field, &[1; 18], 2, 1, 2, smoke), Ok(()));
    }
    let part = smoke(&[1, 1, 1, 1, 1, 1, 1, 1, 1, 0].repeat(2));
    assert_eq!(field, part.repeat(2));
}
