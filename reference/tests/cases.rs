//! Document 01's "Cases beside the edges" and case F. The face cases are those
//! of request 2026-02. The closings' clipped masses, each worked out as P minus
//! the weighted sum of the levelled numbers, and case F's last field are of
//! request 2026-04.

mod smokes;

use reference::closing::{close, level, weighted, Closed};
use reference::file::{encoded_as, Mark};
use reference::flux::{corrected, cut, donor, face_amount};
use reference::program::output;
use reference::{emission, load, mass, step, total, wind, withdrawal, Shape, Way};
use reference::{read_file, write_file};
use smokes::smoke;

/// Corners, edges and centre in the order b outer, a inner.
fn nodes(corner: i128, edge: i128, centre: i128) -> [i128; 9] {
    [
        corner, edge, corner, edge, centre, edge, corner, edge, corner,
    ]
}

/// A closing's answer.
fn closed(numbers: [u32; 10], clipped: u64) -> Closed {
    Closed { numbers, clipped }
}

#[test]
fn three_outflows_of_seven() {
    for (held, each) in [(10, 3), (20, 6), (21, 7), (0, 0)] {
        assert_eq!(cut(7, held, 21), each);
    }
    assert_eq!(cut(-7, 10, 21), -3);
}

/// The same through the faces of a grid: the centre of 3 by 3 gives to the
/// east, to the north and, by a negative amount, to the west.
#[test]
fn three_outflows_on_a_grid() {
    let shape = Shape { nx: 3, ny: 3, k: 1 };
    for (held, each) in [(10, 3), (20, 6), (21, 7), (0, 0)] {
        let mut amounts = [0; 18];
        (amounts[4], amounts[9 + 4], amounts[3]) = (7, 7, -7);
        let mut masses = [1000; 9];
        masses[4] = held;
        let moved = corrected(shape, &amounts, &masses);
        assert_eq!((moved[4], moved[13], moved[3]), (each, each, -each));
        assert_eq!(moved.iter().filter(|&&g| g != 0).count() > 0, each != 0);
    }
}

#[test]
fn one_face_on_two_sides_counts_once() {
    let shape = Shape { nx: 1, ny: 1, k: 1 };
    assert_eq!(corrected(shape, &[7, 0], &[7]), [7, 0]);
    assert_eq!(corrected(shape, &[-7, 7], &[7]), [-3, 3]);
}

/// Document 02, 2026-02: "the marked face cases become: sum 4095, C = 1 gives
/// 1; sum 2048, C = 1 gives 0; sum 6144, C = 1 gives 2; sum 4097, C = −1 gives
/// −1."
#[test]
fn marked_face_sums() {
    assert_eq!(face_amount(1, 4095), 1);
    assert_eq!(face_amount(1, 2048), 0);
    assert_eq!(face_amount(1, 6144), 2);
    assert_eq!(face_amount(-1, 4097), -1);
}

/// Document 01's "Sum −4097, C = 1: G = −1, donor the east element" stays.
#[test]
fn a_negative_face_sum_and_its_donor() {
    let g = face_amount(1, -4097);
    assert_eq!(g, -1);
    // Faces 0 and 4 + 0 of 2 by 2: the other element is east, then north.
    let shape = Shape { nx: 2, ny: 2, k: 1 };
    assert_eq!(donor(shape, 0, g), Some(1));
    assert_eq!(donor(shape, 0, 1), Some(0));
    assert_eq!(donor(shape, 4, -1), Some(2));
    assert_eq!(donor(shape, 0, 0), None);
}

#[test]
fn closing_scales_down() {
    let mut psi = nodes(0, 0, 10);
    psi[0] = -60;
    assert_eq!(level(&psi, 100), psi);
    assert_eq!(weighted(&psi.map(|v| v.max(0))), 160);
    // 160 − 100
    let scaled = closed([0, 0, 0, 0, 6, 0, 0, 0, 0, 4], 60);
    assert_eq!(close(&psi, 100), scaled);
}

#[test]
fn closing_levels_down_and_keeps() {
    let psi = nodes(-2, 0, 3);
    assert_eq!(level(&psi, 36), nodes(-3, -1, 2));
    assert_eq!(weighted(&level(&psi, 36).map(|v| v.max(0))), 32);
    // 32 − (2 · 16 − 4 · 3 − 4 · 4 · 1) = 32 − 4
    let kept = closed([0, 0, 0, 0, 2, 0, 0, 0, 0, 4], 28);
    assert_eq!(close(&psi, 36), kept);
}

#[test]
fn closing_level_numbers() {
    let zero = [0; 9];
    let below = closed([0, 0, 0, 0, 0, 0, 0, 0, 0, 35], 0);
    assert_eq!(close(&zero, 35), below);
    let at = closed([1, 1, 1, 1, 1, 1, 1, 1, 1, 0], 0);
    assert_eq!(close(&zero, 36), at);
    // Levelled to 0 before the truncation, which finds nothing to add.
    assert_eq!(close(&[-5; 9], 0), closed([0; 10], 0));
}

#[test]
fn wind_at_its_edge() {
    let mut faces = [0; 2];
    assert_eq!(wind(&mut faces, 1, 1, 1, Way::East, 0, 0, 1024), Ok(()));
    assert_eq!(wind(&mut faces, 1, 1, 1, Way::North, 0, 0, -1024), Ok(()));
    assert_eq!(wind(&mut faces, 1, 1, 1, Way::East, 0, 0, 1025), Err(5));
    assert_eq!(wind(&mut faces, 1, 1, 1, Way::East, 0, 0, -1025), Err(5));
    assert_eq!(faces, [1024, -1024]);
}

#[test]
fn withdrawal_at_its_edge() {
    let full = smoke(&[7, 7, 7, 7, 7, 7, 7, 7, 7, 5]);
    let mut field = full.clone();
    assert_eq!(mass(&field, 1, 1, 1, 0, 0, 0), Ok(257));
    assert_eq!(withdrawal(&mut field, 1, 1, 1, 0, 0, 0, 258), Err(10));
    assert_eq!(field, full);
    assert_eq!(withdrawal(&mut field, 1, 1, 1, 0, 0, 0, 257), Ok(0));
    assert_eq!(field, [0; 11]);
}

#[test]
fn withdrawal_is_not_levelled() {
    // T = 200 below P = 252: each 7 becomes floor(7 · 200 / 252) = 5.
    let mut field = smoke(&[7, 7, 7, 7, 7, 7, 7, 7, 7, 5]);
    assert_eq!(withdrawal(&mut field, 1, 1, 1, 0, 0, 0, 57), Ok(0));
    assert_eq!(field, smoke(&[5, 5, 5, 5, 5, 5, 5, 5, 5, 20]));
    // T = 162 keeps the values: the remainder gives it alone.
    let mut spike = smoke(&[0, 0, 0, 0, 10, 0, 0, 0, 0, 3]);
    assert_eq!(withdrawal(&mut spike, 1, 1, 1, 0, 0, 0, 1), Ok(0));
    assert_eq!(spike, smoke(&[0, 0, 0, 0, 10, 0, 0, 0, 0, 2]));
    // T = 1510 below P = 1610. Levelled by floor(−100 / 36) = −3 the corner
    // would be 7 and end as 6, and the seven zeros would give a figure of 57.
    let mut two = smoke(&[10, 0, 0, 0, 100, 0, 0, 0, 0, 3]);
    assert_eq!(withdrawal(&mut two, 1, 1, 1, 0, 0, 0, 103), Ok(0));
    assert_eq!(two, smoke(&[9, 0, 0, 0, 93, 0, 0, 0, 0, 13]));
}

#[test]
fn total_at_its_edge() {
    let mut field = [0; 11];
    let mut numbers = [0; 9];
    numbers[0] = 100_000_000;
    assert_eq!(load(&mut field, &numbers, 1, 1, 1, 0), Ok(()));
    assert_eq!(total(&field, 1, 1, 1, 0), Ok(100_000_000));
    let full = field;
    assert_eq!(emission(&mut field, 1, 1, 1, 0, 0, 0, 1), Err(9));
    assert_eq!(emission(&mut field, 1, 1, 1, 0, 0, 0, 0), Ok(0));
    numbers[0] += 1;
    assert_eq!(load(&mut field, &numbers, 1, 1, 1, 0), Err(9));
    assert_eq!(field, full);
    // Stored beside the edge: 99,999,999 takes one more, 100,000,001 is 6.
    (field[0], field[10]) = (99_999_999, 99_999_999);
    assert_eq!(emission(&mut field, 1, 1, 1, 0, 0, 0, 2), Err(9));
    assert_eq!(emission(&mut field, 1, 1, 1, 0, 0, 0, 1), Ok(0));
    assert_eq!(total(&field, 1, 1, 1, 0), Ok(100_000_000));
    field[10] += 1;
    assert_eq!(total(&field, 1, 1, 1, 0), Err(6));
}

#[test]
fn even_smoke_in_even_wind_stays() {
    let (nx, ny) = (3, 4);
    // Every face sum is 36 · 7, so G is 252 · C / 4096 to the nearest: here
    // ±63, −43.07 and 0.18, 0.06, ±31.5, ±0.62.
    for (east, north, east_amount, north_amount) in [
        (1024, -1024, 63, -63),
        (-700, 3, -43, 0),
        (1, 1, 0, 0),
        (512, -512, 32, -32),
        (10, -10, 1, -1),
    ] {
        let faces = [[east; 12], [north; 12]].concat();
        let mut field = smoke(&[7, 7, 7, 7, 7, 7, 7, 7, 7, 5].repeat(12));
        let before = field.clone();
        let (mut report, mut work) = ([9; 24], [9; 64 * 12]);
        let answer = step(&mut field, &faces, &mut report, &mut work, nx, ny, 1, 0);
        assert_eq!(answer, Ok(0));
        assert_eq!(field, before);
        assert_eq!(report[..12], [east_amount; 12]);
        assert_eq!(report[12..], [north_amount; 12]);
    }
}

/// A step done by hand: nx = 2, ny = 1, east winds 1024, all other numbers
/// 0 but the east edge of the west element, values 4.
#[test]
fn one_stage_by_hand() {
    use reference::tendency::{tendencies, Winds};
    let shape = Shape { nx: 2, ny: 1, k: 1 };
    let winds = Winds {
        shape,
        faces: &[1024, 1024, 0, 0],
    };
    let west = [0, 0, 4, 0, 0, 4, 0, 0, 4];
    let t = tendencies(&winds, &[west, [0; 9]]);
    // c = 2048 everywhere, φ(2) = 4: X(0) = 2048·4·1 = 8192, X(1) = −32768,
    // X(2) = 24576 − 12·1024·4 = −24576; t = X / (8192 ω).
    assert_eq!(t[0], [1, -1, -3, 1, -1, -3, 1, -1, -3]);
    // The east element only gets 12·1024·4 / 8192 = 6 at its west edge.
    assert_eq!(t[1], [6, 0, 0, 6, 0, 0, 6, 0, 0]);
}

fn case_f() -> Vec<u8> {
    let mut file = vec![0, 4, 0, 0];
    for number in [7u32, 7, 7, 7, 7, 7, 7, 7, 7, 5] {
        file.extend(number.to_le_bytes());
    }
    file.extend([0, 0, 0, 0, 4, 0, 0, 0]);
    file.extend([1, 1, 1, 0, 44, 0, 0, 0]);
    file.extend(b"PLUM");
    file
}

/// Case F under the mark "PLU2" (request 2026-06): the total ends the section,
/// so the table is at 48.
fn case_f_with_its_total() -> Vec<u8> {
    let mut file = case_f();
    file.splice(44..44, 257_u32.to_le_bytes());
    (file[60], file[67]) = (48, b'2');
    file
}

#[test]
fn case_f_under_its_own_mark() {
    let field = smoke(&[7, 7, 7, 7, 7, 7, 7, 7, 7, 5]);
    let shape = Shape { nx: 1, ny: 1, k: 1 };
    let file = encoded_as(Mark::Plum, &field, &[1024, 0], shape);
    assert_eq!(file, case_f());
    let (mut read, mut wind) = ([9; 12], [9; 3]);
    assert_eq!(read_file(&file, &mut read, &mut wind), Ok(shape));
    assert_eq!((&read[..11], read[11]), (&field[..], 9));
    assert_eq!(wind, [1024, 0, 9]);
}

/// Document 02, 2026-06: ""PLUM" is still read, its totals worked out, and such
/// a file is written again as "PLU2"".
#[test]
fn case_f_is_written_again_as_plu2() {
    let (mut field, mut wind) = ([0; 11], [0; 2]);
    for file in [case_f(), case_f_with_its_total()] {
        assert!(read_file(&file, &mut field, &mut wind).is_ok());
        let mut out = [255; 70];
        assert_eq!(write_file(&field, &wind, &mut out, 1, 1, 1), Ok(68));
        assert_eq!(out[..68], case_f_with_its_total());
        assert_eq!(out[68..], [255, 255]);
    }
}

/// Document 02, 2026-04: "case F ends "total 0 257 0"".
#[test]
fn case_f_output_whole() {
    assert_eq!(case_f().len(), 64);
    let whole = b"grid 1 1 1\nface 0 east 0 0 63\nface 0 north 0 0 0\ntotal 0 257 0\n";
    assert_eq!(output(&case_f()).as_bytes(), whole);
    assert_eq!(output(&case_f_with_its_total()).as_bytes(), whole);
}
