//! The printed map (request 2026-03): pages written by hand, and every place of
//! a page read back.

mod pages;
mod smokes;

use pages::{field_of, smoke_of, OLD};
use reference::random_file::sound_file;
use reference::{map, mass, read_file, total, Shape};
use smokes::smoke;

/// The page of the only smoke, lent a buffer of just its length.
fn page_of(masses: &[u32], nx: usize, ny: usize) -> String {
    let mut page = vec![OLD; Shape { nx, ny, k: 1 }.page_len()];
    let written = map(&mut page, &smoke_of(masses), nx, ny, 1, 0);
    assert_eq!(written, Ok(page.len() as u64));
    String::from_utf8(page).unwrap()
}

#[test]
fn one_element() {
    let page = [
        "            0                                                            \n",
        "  0       257                                                            \n",
        "sum                                                                   257\n",
    ];
    assert_eq!(page_of(&[257], 1, 1), page.concat());
}

#[test]
fn nothing_is_a_0() {
    let page = [
        "            0                                                            \n",
        "  0         0                                                            \n",
        "sum                                                                     0\n",
    ];
    assert_eq!(page_of(&[0], 1, 1), page.concat());
}

#[test]
fn seven_columns_are_one_block() {
    let page = [
        "            0         1         2         3         4         5         6\n",
        "  0         1        20       300      4000     50000    600000   7000000\n",
        "sum                                                               7654321\n",
    ];
    let masses = [1, 20, 300, 4000, 50_000, 600_000, 7_000_000];
    assert_eq!(page_of(&masses, 7, 1), page.concat());
}

/// The eighth column has a block of its own, with blanks also in its first
/// line; the sum is that of both blocks.
#[test]
fn eight_columns_are_two_blocks() {
    let page = [
        "            0         1         2         3         4         5         6\n",
        "  0         1        20       300      4000     50000    600000   7000000\n",
        "            7                                                            \n",
        "  0  80000000                                                            \n",
        "sum                                                              87654321\n",
    ];
    let masses = [1, 20, 300, 4000, 50_000, 600_000, 7_000_000, 80_000_000];
    assert_eq!(page_of(&masses, 8, 1), page.concat());
}

/// No empty block follows the second.
#[test]
fn fourteen_columns_are_two_full_blocks() {
    let page = [
        "            0         1         2         3         4         5         6\n",
        "  0         1        20       300      4000     50000    600000   7000000\n",
        "            7         8         9        10        11        12        13\n",
        "  0  80000000         0        35        36         9  12345592         7\n",
        "sum                                                             100000000\n",
    ];
    let mut masses = vec![1, 20, 300, 4000, 50_000, 600_000, 7_000_000];
    masses.extend([80_000_000, 0, 35, 36, 9, 12_345_592, 7]);
    assert_eq!(page_of(&masses, 14, 1), page.concat());
}

#[test]
fn the_northmost_row_is_first() {
    let page = [
        "            0         1                                                  \n",
        "  2        31        32                                                  \n",
        "  1        21        22                                                  \n",
        "  0        11        12                                                  \n",
        "sum                                                                   129\n",
    ];
    assert_eq!(page_of(&[11, 12, 21, 22, 31, 32], 2, 3), page.concat());
}

/// Every block has all rows; the east columns of one row come after the west
/// columns of all.
#[test]
fn rows_within_blocks() {
    let page = [
        "            0         1         2         3         4         5         6\n",
        "  1       100       101       102       103       104       105       106\n",
        "  0         0         1         2         3         4         5         6\n",
        "            7         8                                                  \n",
        "  1       107       108                                                  \n",
        "  0         7         8                                                  \n",
        "sum                                                                   972\n",
    ];
    let masses: Vec<u32> = (0..9).chain(100..109).collect();
    assert_eq!(page_of(&masses, 9, 2), page.concat());
}

/// j goes on to two digits.
#[test]
fn eleven_rows() {
    let page = [
        "            0                                                            \n",
        " 10        10                                                            \n",
        "  9         9                                                            \n",
        "  8         8                                                            \n",
        "  7         7                                                            \n",
        "  6         6                                                            \n",
        "  5         5                                                            \n",
        "  4         4                                                            \n",
        "  3         3                                                            \n",
        "  2         2                                                            \n",
        "  1         1                                                            \n",
        "  0         0                                                            \n",
        "sum                                                                    55\n",
    ];
    assert_eq!(page_of(&Vec::from_iter(0..11), 1, 11), page.concat());
}

/// A hundred million has nine digits, so a blank stays before it. Ten blocks
/// of 65 lines, the last with column 63 alone, and the sum.
#[test]
fn the_largest_grid_with_all_in_one_element() {
    let last = "           63                                                            ";
    let sum = "sum                                                             100000000";
    for (i, j, row) in [
        (
            63,
            63,
            " 63 100000000                                                            ",
        ),
        (
            0,
            0,
            "  0 100000000         0         0         0         0         0         0",
        ),
        (
            30,
            5,
            "  5         0         0 100000000         0         0         0         0",
        ),
    ] {
        let mut masses = vec![0; 4096];
        masses[64 * j + i] = 100_000_000;
        let page = page_of(&masses, 64, 64);
        assert_eq!(page.len(), 651 * 74);
        let lines: Vec<&str> = page.lines().collect();
        let at = 65 * (i / 7) + 64 - j;
        assert_eq!((lines[at], lines[585], lines[650]), (row, last, sum));
        for (n, line) in lines[..650].iter().enumerate() {
            if n != at && n % 65 != 0 {
                assert!(columns(line).into_iter().flatten().all(|m| m == 0));
            }
        }
    }
}

/// The node weights, not only their sum, are in M.
#[test]
fn every_number_of_an_element_counts() {
    for (at, m) in [1, 4, 1, 4, 16, 4, 1, 4, 1, 1].into_iter().enumerate() {
        let mut element = [0; 10];
        element[at] = 30;
        let mut page = [OLD; 222];
        assert_eq!(map(&mut page, &smoke(&element), 1, 1, 1, 0), Ok(222));
        let held = format!("  0{:>10}{}\n", 30 * m, " ".repeat(60));
        assert_eq!(page[74..148], *held.as_bytes());
        let sum = format!("sum{:>70}\n", 30 * m);
        assert_eq!(page[148..], *sum.as_bytes());
    }
}

/// The columns of ten of a line after its first three characters; an absent
/// one is None.
fn columns(line: &str) -> Vec<Option<u64>> {
    assert_eq!(line.len(), 73);
    let ten = |n: usize| &line[3 + 10 * n..13 + 10 * n];
    (0..7).map(|n| right_aligned(ten(n))).collect()
}

/// A number after blanks, without another sign or a leading zero.
fn right_aligned(text: &str) -> Option<u64> {
    let digits = text.trim_start_matches(' ');
    if digits.is_empty() {
        return None;
    }
    let number: u64 = digits.parse().unwrap();
    assert_eq!(digits, number.to_string());
    Some(number)
}

/// Reads every place of a page and holds it to the other readings.
fn held_to_the_readings(page: &[u8], field: &[u32], shape: Shape, smoke: usize) {
    let Shape { nx, ny, k } = shape;
    let text = std::str::from_utf8(page).unwrap();
    assert!(text.ends_with('\n'));
    let lines: Vec<&str> = text.lines().collect();
    assert!(lines.iter().all(|line| line.len() == 73));
    let blocks = (nx as f64 / 7.0).ceil() as usize;
    assert_eq!(lines.len(), blocks * (ny + 1) + 1);
    for (block, lines) in lines[..blocks * (ny + 1)].chunks(ny + 1).enumerate() {
        let there = |n: usize| Some(7 * block + n).filter(|&i| i < nx);
        let header: Vec<_> = (0..7).map(|n| there(n).map(|i| i as u64)).collect();
        assert_eq!((&lines[0][..3], columns(lines[0])), ("   ", header));
        for (down, line) in lines[1..].iter().enumerate() {
            let j = ny - 1 - down;
            assert_eq!(right_aligned(&line[..3]), Some(j as u64));
            let held = |i| mass(field, nx, ny, k, smoke, i, j).unwrap();
            let row: Vec<_> = (0..7).map(|n| there(n).map(held)).collect();
            assert_eq!(columns(line), row);
        }
    }
    let sum = lines[lines.len() - 1];
    assert_eq!(&sum[..3], "sum");
    let all = total(field, nx, ny, k, smoke).unwrap();
    assert_eq!(right_aligned(&sum[3..]), Some(all));
}

#[test]
fn random_fields_on_every_width() {
    for nx in 1..=64 {
        let (ny, k) = (1 + nx * 5 % 7, 1 + nx % 3);
        let shape = Shape { nx, ny, k };
        let file = sound_file(nx as u64, nx, ny, k).unwrap();
        let (mut field, mut wind) = (vec![0; shape.field_len()], vec![0; shape.wind_len()]);
        assert_eq!(read_file(&file, &mut field, &mut wind), Ok(shape));
        for smoke in 0..k {
            let mut page = vec![OLD; shape.page_len() + 3];
            let written = map(&mut page, &field, nx, ny, k, smoke).unwrap() as usize;
            assert_eq!(page[written..], [OLD; 3]);
            held_to_the_readings(&page[..written], &field, shape, smoke);
        }
    }
}

#[test]
fn the_number_is_the_bytes_written() {
    for (nx, ny, lines) in [
        (1, 1, 3),
        (6, 1, 3),
        (7, 1, 3),
        (8, 1, 5),
        (14, 1, 5),
        (15, 1, 7),
        (1, 64, 66),
        (7, 64, 66),
        (8, 64, 131),
        (63, 1, 19),
        (64, 1, 21),
        (63, 64, 586),
        (64, 64, 651),
    ] {
        let field = vec![0; (10 * nx * ny + 1) * 2];
        let mut page = vec![OLD; 651 * 74];
        let written = map(&mut page, &field, nx, ny, 2, 1).unwrap() as usize;
        assert_eq!(written, lines * 74);
        assert_eq!(page[written - 1], b'\n');
        assert!(page[..written].iter().all(|&byte| byte != OLD));
        assert!(page[written..].iter().all(|&byte| byte == OLD));
    }
}

#[test]
fn the_named_smoke_is_printed() {
    let page = [
        "            0         1                                                  \n",
        "  0         3         4                                                  \n",
        "sum                                                                     7\n",
    ];
    let mut lent = [OLD; 224];
    let field = field_of(&[1, 2, 3, 4, 5, 6]);
    assert_eq!(map(&mut lent, &field, 2, 1, 3, 1), Ok(222));
    assert_eq!(lent[..222], *page.concat().as_bytes());
    assert_eq!(lent[222..], [OLD; 2]);
}
