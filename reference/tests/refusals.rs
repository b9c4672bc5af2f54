//! Every refusal in rising order; nothing written where refused; surplus
//! left alone; absurd sizes.

use reference::{
    emission, fresh, load, mass, read_file, step, total, wind, withdrawal, write_file,
};
use reference::{Mark, Shape, Way};

const HUGE: usize = usize::MAX;

/// Field of 2 by 1 with two smokes, each with its own soundness. The stored
/// totals (request 2026-06) are the sums: an element of ones holds 37.
fn field(second_remainder: u32) -> [u32; 42] {
    let mut field = [1; 42];
    (field[20], field[40], field[41]) = (74, second_remainder, 73 + second_remainder);
    field
}

#[test]
fn shapes_outside_are_2_before_all() {
    let bad = [
        (0, 1, 1),
        (1, 0, 1),
        (1, 1, 0),
        (65, 1, 1),
        (1, 65, 1),
        (1, 1, 9),
        (HUGE, HUGE, HUGE),
    ];
    for (nx, ny, k) in bad {
        assert_eq!(fresh(&mut [], &mut [], nx, ny, k), Err(2));
        let turned = wind(&mut [], nx, ny, k, Way::East, HUGE, HUGE, 1025);
        assert_eq!(turned, Err(2));
        assert_eq!(load(&mut [], &[], nx, ny, k, HUGE), Err(2));
        let q = u64::MAX;
        assert_eq!(emission(&mut [], nx, ny, k, HUGE, HUGE, HUGE, q), Err(2));
        assert_eq!(withdrawal(&mut [], nx, ny, k, HUGE, HUGE, HUGE, q), Err(2));
        let stepped = step(&mut [], &[], &mut [], &mut [], nx, ny, k, HUGE);
        assert_eq!(stepped, Err(2));
        assert_eq!(mass(&[], nx, ny, k, HUGE, HUGE, HUGE), Err(2));
        assert_eq!(total(&[], nx, ny, k, HUGE), Err(2));
        assert_eq!(write_file(&[], &[], &mut [], nx, ny, k), Err(2));
    }
}

#[test]
fn short_slices_are_4_before_the_rest() {
    let (mut f, mut w) = ([u32::MAX; 42], [2000; 4]);
    assert_eq!(fresh(&mut f[..41], &mut w, 2, 1, 2), Err(4));
    assert_eq!(fresh(&mut f, &mut w[..3], 2, 1, 2), Err(4));
    let turned = wind(&mut w[..3], 2, 1, 2, Way::East, 0, 0, 1025);
    assert_eq!(turned, Err(4));
    assert_eq!(load(&mut f[..41], &[0; 18], 2, 1, 2, 9), Err(4));
    assert_eq!(load(&mut f, &[0; 17], 2, 1, 2, 9), Err(4));
    assert_eq!(emission(&mut f[..41], 2, 1, 2, 0, 0, 0, 1), Err(4));
    assert_eq!(withdrawal(&mut f[..41], 2, 1, 2, 0, 0, 0, 1), Err(4));
    assert_eq!(mass(&f[..41], 2, 1, 2, 0, 0, 0), Err(4));
    assert_eq!(total(&f[..41], 2, 1, 2, 0), Err(4));
    for (nf, nw, nr, nk) in [
        (41, 4, 4, 128),
        (42, 3, 4, 128),
        (42, 4, 3, 128),
        (42, 4, 4, 127),
    ] {
        let (mut report, mut work) = ([3; 4], [3; 128]);
        let (r, k) = (&mut report[..nr], &mut work[..nk]);
        assert_eq!(step(&mut f[..nf], &w[..nw], r, k, 2, 1, 2, 9), Err(4));
        assert_eq!((report, work), ([3; 4], [3; 128]));
    }
    let length = Shape { nx: 2, ny: 1, k: 2 }.file_len(Mark::Plu2);
    let mut out = vec![3; length];
    for (nf, nw, no) in [(41, 4, length), (42, 3, length), (42, 4, length - 1)] {
        let written = write_file(&f[..nf], &w[..nw], &mut out[..no], 2, 1, 2);
        assert_eq!(written, Err(4));
    }
    assert_eq!(out, vec![3; length]);
    assert_eq!((f, w), ([u32::MAX; 42], [2000; 4]));
}

#[test]
fn wind_call_is_5_before_8_and_looks_at_the_offered_one_only() {
    let mut w = [2000; 5];
    let mut turn = |i, j, c| wind(&mut w, 2, 1, 2, Way::North, i, j, c);
    assert_eq!(turn(2, 0, 1025), Err(5));
    assert_eq!(turn(2, 0, 1024), Err(8));
    assert_eq!(turn(0, 1, 1024), Err(8));
    assert_eq!(turn(HUGE, HUGE, i16::MIN), Err(5));
    assert_eq!(turn(HUGE, HUGE, 0), Err(8));
    assert_eq!(turn(1, 0, -3), Ok(()));
    assert_eq!(w, [2000, 2000, 2000, -3, 2000]);
}

#[test]
fn load_is_7_before_9_and_never_6() {
    let mut f = [u32::MAX; 43];
    assert_eq!(load(&mut f, &[u32::MAX; 18], 2, 1, 2, 2), Err(7));
    assert_eq!(load(&mut f, &[u32::MAX; 18], 2, 1, 2, HUGE), Err(7));
    assert_eq!(load(&mut f, &[u32::MAX; 18], 2, 1, 2, 1), Err(9));
    assert_eq!(f, [u32::MAX; 43]);
    let mut numbers = [5; 19];
    numbers[18] = u32::MAX;
    assert_eq!(load(&mut f, &numbers, 2, 1, 2, 1), Ok(()));
    assert_eq!(f[..21], [u32::MAX; 21]);
    let element = [5, 5, 5, 5, 5, 5, 5, 5, 5, 0];
    assert_eq!(f[21..41], [element, element].concat());
    // "load to the new sum" (request 2026-06)
    assert_eq!(f[41..], [360, u32::MAX]);
}

#[test]
fn step_is_5_6_7_of_the_named_smoke() {
    let (mut report, mut work) = ([3; 5], [3; 129]);
    let mut run = |f: &mut [u32], w: &[i16], smoke| {
        let before = f.to_vec();
        report = [3; 5];
        let answer = step(f, w, &mut report, &mut work, 2, 1, 2, smoke);
        if answer.is_err() {
            assert_eq!((f, report), (&mut before.clone()[..], [3; 5]));
        }
        assert_eq!(report[4], 3);
        answer
    };
    let (good, bad) = ([0, 0, 0, 0, 2000], [0, 0, 0, -1025, 0]);
    assert_eq!(run(&mut field(36), &bad, 1), Err(5));
    assert_eq!(run(&mut field(36), &bad, 7), Err(5));
    assert_eq!(run(&mut field(36), &good, 1), Err(6));
    assert_eq!(run(&mut field(36), &good, 0), Ok(0));
    assert_eq!(run(&mut field(36), &good, 2), Err(7));
    assert_eq!(run(&mut field(36), &good, HUGE), Err(7));
    assert_eq!(run(&mut [u32::MAX; 42], &good, 1), Err(6));
    assert_eq!(run(&mut field(35), &good, 1), Ok(0));
}

#[test]
fn element_calls_are_6_7_8_then_9_or_10() {
    let q = u64::MAX;
    let f = &mut field(36);
    let before = *f;
    for (smoke, i, j, number) in [
        (1, 1, 0, 6),
        // "one off the grid has no numbers" (request 2026-06)
        (1, 2, 0, 8),
        (2, 2, 0, 7),
        (HUGE, 2, 0, 7),
        (0, 2, 0, 8),
        (0, 0, 1, 8),
        (0, HUGE, HUGE, 8),
    ] {
        assert_eq!(emission(f, 2, 1, 2, smoke, i, j, q), Err(number));
        assert_eq!(withdrawal(f, 2, 1, 2, smoke, i, j, q), Err(number));
        assert_eq!(mass(f, 2, 1, 2, smoke, i, j), Err(number));
    }
    assert_eq!(emission(f, 2, 1, 2, 0, 1, 0, q), Err(9));
    assert_eq!(withdrawal(f, 2, 1, 2, 0, 1, 0, q), Err(10));
    // An element beside the one with the remainder.
    assert_eq!(emission(f, 2, 1, 2, 1, 0, 0, q), Err(9));
    assert_eq!(withdrawal(f, 2, 1, 2, 1, 0, 0, q), Err(10));
    assert_eq!(total(f, 2, 1, 2, 2), Err(7));
    assert_eq!(*f, before);
    assert_eq!(mass(f, 2, 1, 2, 0, 1, 0), Ok(37));
    assert_eq!(total(f, 2, 1, 2, 0), Ok(74));
    assert_eq!(mass(f, 2, 1, 2, 1, 0, 0), Ok(37));
    assert_eq!(total(f, 2, 1, 2, 1), Ok(109));
}

#[test]
fn fresh_and_emission_leave_surplus_alone() {
    let (mut f, mut w) = ([9; 44], [9; 6]);
    assert_eq!(fresh(&mut f, &mut w, 2, 1, 2), Ok(()));
    assert_eq!((&f[..42], &f[42..]), (&[0; 42][..], &[9; 2][..]));
    assert_eq!(w, [0, 0, 0, 0, 9, 9]);
    assert_eq!(emission(&mut f, 2, 1, 2, 1, 1, 0, 77), Ok(0));
    assert_eq!(f[31..], [2, 2, 2, 2, 2, 2, 2, 2, 2, 5, 77, 9, 9]);
    assert!(f[..31].iter().all(|&number| number == 0));
}

#[test]
fn writing_is_5_before_6_of_any_smoke() {
    let mut out = [3; 200];
    let bad = field(36);
    assert_eq!(
        write_file(&bad, &[0, 0, 0, 1025], &mut out, 2, 1, 2),
        Err(5)
    );
    assert_eq!(write_file(&bad, &[0; 4], &mut out, 2, 1, 2), Err(6));
    assert_eq!(
        write_file(&[u32::MAX; 42], &[0; 4], &mut out, 2, 1, 2),
        Err(6)
    );
    assert_eq!(out, [3; 200]);
    // Surplus numbers are not looked at.
    let (f, w) = ([field(35), bad].concat(), [0, 0, 0, 0, 2000]);
    assert_eq!(write_file(&f, &w, &mut out, 2, 1, 2), Ok(8 + 168 + 12 + 12));
}

#[test]
fn reading_is_4_before_5_and_6() {
    let shape = Shape { nx: 2, ny: 1, k: 2 };
    let file = reference::file::encoded(&field(36), &[0, 0, 0, 1025], shape);
    let (mut f, mut w) = ([3; 42], [3; 4]);
    assert_eq!(read_file(&file, &mut f[..41], &mut w), Err(4));
    assert_eq!(read_file(&file, &mut f, &mut w[..3]), Err(4));
    assert_eq!(read_file(&file, &mut f, &mut w), Err(5));
    let file = reference::file::encoded(&field(36), &[0; 4], shape);
    assert_eq!(read_file(&file, &mut f, &mut w), Err(6));
    assert_eq!((f, w), ([3; 42], [3; 4]));
}
