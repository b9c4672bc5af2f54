//! The printed map (request 2026-03): every refusal, and what is left alone.

mod pages;
mod smokes;

use pages::{field_of, OLD};
use reference::map;
use smokes::smoke;

const HUGE: usize = usize::MAX;

/// The answer for 2 by 1 with two smokes, lent a page of so many bytes. A
/// refused call must leave the whole page alone, an accepted one what is
/// beyond its 222 bytes.
fn answer(field: &[u32], bytes: usize, smoke: usize) -> Result<u64, u8> {
    let mut page = vec![OLD; bytes];
    let answer = map(&mut page, field, 2, 1, 2, smoke);
    let kept = match answer {
        Ok(_) => &page[222..],
        Err(_) => &page[..],
    };
    assert!(kept.iter().all(|&byte| byte == OLD));
    answer
}

#[test]
fn shapes_outside_are_2_before_all() {
    for (nx, ny, k) in [
        (0, 1, 1),
        (1, 0, 1),
        (1, 1, 0),
        (65, 1, 1),
        (1, 65, 1),
        (1, 1, 9),
        (HUGE, HUGE, HUGE),
    ] {
        assert_eq!(map(&mut [], &[], nx, ny, k, HUGE), Err(2));
        let mut page = vec![OLD; 651 * 74];
        assert_eq!(map(&mut page, &[u32::MAX; 42], nx, ny, k, 0), Err(2));
        assert_eq!(map(&mut page, &vec![0; 50_000], nx, ny, k, 0), Err(2));
        assert!(page.iter().all(|&byte| byte == OLD));
    }
}

#[test]
fn short_slices_are_4_before_6_and_7() {
    for number in [0, u32::MAX] {
        let field = [number; 42];
        for smoke in [0, 1, 2, HUGE] {
            assert_eq!(answer(&field[..41], 222, smoke), Err(4));
            assert_eq!(answer(&field, 221, smoke), Err(4));
            assert_eq!(answer(&field[..41], 221, smoke), Err(4));
            assert_eq!(answer(&field, 0, smoke), Err(4));
            assert_eq!(answer(&[], 222, smoke), Err(4));
        }
    }
    // All smokes' numbers are needed, also those after the named one.
    assert_eq!(answer(&[0; 21], 222, 0), Err(4));
    assert_eq!(answer(&[0; 42], 222, 0), Ok(222));
    // On the largest grid, one byte too few.
    let mut page = vec![OLD; 651 * 74];
    let field = vec![0; 40_961];
    assert_eq!(map(&mut page[..48_173], &field, 64, 64, 1, 0), Err(4));
    assert!(page.iter().all(|&byte| byte == OLD));
    assert_eq!(map(&mut page, &field, 64, 64, 1, 0), Ok(651 * 74));
}

#[test]
fn unsound_smokes_are_6() {
    for at in [9, 19] {
        let mut elements = [0; 20];
        elements[at] = 35;
        let sound = |elements: &[u32]| [smoke(elements), smoke(&[0; 20])].concat();
        assert_eq!(answer(&sound(&elements), 222, 0), Ok(222));
        for remainder in [36, u32::MAX] {
            elements[at] = remainder;
            assert_eq!(answer(&sound(&elements), 222, 0), Err(6));
            // The other smoke's numbers are sound.
            assert_eq!(answer(&sound(&elements), 222, 1), Ok(222));
        }
    }
    // A total of the limit, in one element or in two; then one more.
    for (first, second) in [(100_000_000, 0), (99_999_999, 1), (0, 100_000_000)] {
        let mut field = field_of(&[0, 0, first, second]);
        assert_eq!(answer(&field, 222, 1), Ok(222));
        field = field_of(&[0, 0, first, second + 1]);
        assert_eq!(answer(&field, 222, 1), Err(6));
        assert_eq!(answer(&field, 222, 0), Ok(222));
    }
    assert_eq!(answer(&[u32::MAX; 42], 222, 1), Err(6));
}

/// Document 02, 2026-06: "Step, the printed map, file reading and file writing
/// still sum, and give 6 where sum and stored total differ."
#[test]
fn a_stored_total_that_differs_is_6() {
    for stored in [0, 6, 8, 100_000_001, u32::MAX] {
        let mut field = field_of(&[1, 2, 3, 4]);
        assert_eq!(field[41], 7);
        field[41] = stored;
        assert_eq!(answer(&field, 222, 1), Err(6));
        assert_eq!(answer(&field, 222, 0), Ok(222));
        assert_eq!(answer(&field, 222, 2), Err(7));
        assert_eq!(answer(&field, 221, 1), Err(4));
    }
}

/// "A smoke number not below K has no numbers to search, so it passes here and
/// meets 7."
#[test]
fn unknown_smokes_are_7() {
    for number in [0, 36, u32::MAX] {
        for smoke in [2, 3, 8, 255, HUGE] {
            assert_eq!(answer(&[number; 42], 222, smoke), Err(7));
            // Numbers beyond the field's are none of a smoke.
            assert_eq!(answer(&[number; 60], 300, smoke), Err(7));
        }
    }
}

#[test]
fn surplus_is_left_alone() {
    // Surplus numbers are not looked at, surplus bytes not written.
    let field = [field_of(&[1, 2, 3, 4]), vec![u32::MAX; 10]].concat();
    for bytes in [222, 223, 296, 1000] {
        assert_eq!(answer(&field, bytes, 0), Ok(222));
        assert_eq!(answer(&field, bytes, 1), Ok(222));
    }
}
