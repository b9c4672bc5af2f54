//! Round trips, damaged files and the program's own limits.

use reference::checks::{smoke_part, smoke_total, stored_total};
use reference::file::encoded_as;
use reference::program::output;
use reference::random_file::{damaged, sound_file, sound_file_as, KINDS, STORED_KINDS};
use reference::{map_program, read_file, write_file, Mark, Shape};

const SHAPES: [(usize, usize, usize); 6] = [
    (1, 1, 1),
    (2, 3, 1),
    (5, 4, 3),
    (64, 2, 8),
    (1, 64, 2),
    (64, 64, 2),
];

fn buffers(shape: Shape) -> (Vec<u32>, Vec<i16>) {
    (vec![0; shape.field_len()], vec![0; shape.wind_len()])
}

#[test]
fn round_trips() {
    for seed in 0..24 {
        let (nx, ny, k) = SHAPES[seed as usize % SHAPES.len()];
        let shape = Shape { nx, ny, k };
        let file = sound_file(seed, nx, ny, k).unwrap();
        let (mut field, mut wind) = buffers(shape);
        field.push(77);
        wind.push(77);
        assert_eq!(read_file(&file, &mut field, &mut wind), Ok(shape));
        assert_eq!((field.last(), wind.last()), (Some(&77), Some(&77)));
        let mut out = vec![170; file.len() + 3];
        let length = write_file(&field, &wind, &mut out, nx, ny, k);
        assert_eq!(length, Ok(file.len()));
        assert_eq!(out[..file.len()], file);
        assert_eq!(out[file.len()..], [170; 3]);
    }
}

/// Which refusals a kind of damage may meet.
fn expected(kind: &str) -> &'static [u8] {
    match kind {
        "mark" | "fourth" => &[1],
        "shape" => &[2],
        "offset" | "other_mark" => &[3],
        "truncated" => &[1, 3],
        "wind" => &[5],
        _ => &[6],
    }
}

/// Every mark with every kind that it may have.
fn all_kinds() -> Vec<(Mark, &'static str)> {
    let both = [Mark::Plum, Mark::Plu2].map(|mark| KINDS.map(|kind| (mark, kind)));
    let stored = STORED_KINDS.map(|kind| (Mark::Plu2, kind));
    [&both.concat()[..], &stored].concat()
}

#[test]
fn damage_meets_its_refusal() {
    for (mark, kind) in all_kinds() {
        let mut met = Vec::new();
        for seed in 0..240 {
            let (nx, ny, k) = SHAPES[seed as usize % 4];
            let shape = Shape { nx, ny, k };
            let mut file = sound_file_as(mark, seed, nx, ny, k).unwrap();
            damaged(&mut file, shape, kind, seed).unwrap();
            let (mut field, mut wind) = buffers(shape);
            let answer = read_file(&file, &mut field, &mut wind);
            let number = answer.expect_err("a damaged file passed");
            assert_eq!(output(&file), format!("refused {number}\n"));
            assert!(field.iter().all(|&n| n == 0) && wind.iter().all(|&c| c == 0));
            met.push(number);
        }
        met.sort();
        met.dedup();
        assert_eq!(met, expected(kind), "{kind}");
    }
}

/// Each smoke's sum and stored total in a "PLU2" file, and whether a remainder
/// is above 35.
fn smokes(file: &[u8], shape: Shape) -> Vec<(u64, u64, bool)> {
    let sections = &file[shape.section_offset(Mark::Plu2, 0)..shape.table_offset(Mark::Plu2)];
    let numbers: Vec<u32> = sections
        .chunks(4)
        .map(|bytes| u32::from_le_bytes(bytes.try_into().unwrap()))
        .collect();
    let told = |smoke| {
        let mut elements = smoke_part(&numbers, shape, smoke).chunks_exact(10);
        let large = elements.any(|element| element[9] > 35);
        let sum = smoke_total(&numbers, shape, smoke);
        (sum, stored_total(&numbers, shape, smoke), large)
    };
    (0..shape.k).map(told).collect()
}

/// A damaged "PLU2" file has just the fault of its kind.
#[test]
fn damage_of_smokes_is_of_its_kind() {
    const LIMIT: u64 = 100_000_000;
    for kind in [
        "remainder",
        "total",
        "wrapped",
        "stored",
        "stored_large",
        "stored_other",
    ] {
        for seed in 0..240 {
            let (nx, ny, k) = SHAPES[seed as usize % 4];
            let shape = Shape { nx, ny, k };
            let mut file = sound_file(seed, nx, ny, k).unwrap();
            damaged(&mut file, shape, kind, seed).unwrap();
            let bad = |&(sum, stored, large): &(u64, u64, bool)| match kind {
                "remainder" => large && stored == sum.min(u32::MAX.into()),
                "total" => !large && sum > LIMIT && stored == sum.min(u32::MAX.into()),
                "wrapped" => !large && sum == stored + (1 << 32),
                "stored" => !large && sum.max(stored) <= LIMIT && sum.abs_diff(stored) == 1,
                "stored_large" => !large && sum <= LIMIT && stored > LIMIT,
                _ => !large && sum.max(stored) <= LIMIT && sum != stored,
            };
            let good =
                |&(sum, stored, large): &(u64, u64, bool)| !large && sum == stored && sum <= LIMIT;
            let smokes = smokes(&file, shape);
            assert_eq!(
                smokes.iter().filter(|smoke| bad(smoke)).count(),
                1,
                "{kind}"
            );
            assert_eq!(smokes.iter().filter(|smoke| good(smoke)).count(), k - 1);
        }
    }
}

/// A "PLUM" file has no stored total to damage.
#[test]
fn kinds_of_stored_totals_are_of_plu2_alone() {
    let shape = Shape { nx: 1, ny: 1, k: 1 };
    for kind in STORED_KINDS {
        let mut file = sound_file_as(Mark::Plum, 1, 1, 1, 1).unwrap();
        let before = file.clone();
        assert!(damaged(&mut file, shape, kind, 1).is_err());
        assert_eq!(file, before);
    }
}

/// Document 02, 2026-06: ""PLUM" is still read, its totals worked out, and such
/// a file is written again as "PLU2"; only files with the new mark come back
/// byte for byte."
#[test]
fn plum_files_are_read_and_written_again_as_plu2() {
    for seed in 0..24 {
        let (nx, ny, k) = SHAPES[seed as usize % SHAPES.len()];
        let shape = Shape { nx, ny, k };
        let plum = sound_file_as(Mark::Plum, seed, nx, ny, k).unwrap();
        let plu2 = sound_file(seed, nx, ny, k).unwrap();
        assert_eq!(plu2.len(), plum.len() + 4 * k);
        let (mut field, mut wind) = buffers(shape);
        assert_eq!(read_file(&plum, &mut field, &mut wind), Ok(shape));
        let mut again = buffers(shape);
        assert_eq!(read_file(&plu2, &mut again.0, &mut again.1), Ok(shape));
        assert_eq!((&field, &wind), (&again.0, &again.1));
        let mut out = vec![170; plu2.len()];
        assert_eq!(
            write_file(&field, &wind, &mut out, nx, ny, k),
            Ok(plu2.len())
        );
        assert_eq!(out, plu2);
        assert_eq!(encoded_as(Mark::Plum, &field, &wind, shape), plum);
        assert_eq!(output(&plum), output(&plu2));
        assert_eq!(map_program::output(&plum), map_program::output(&plu2));
    }
}

/// Of a "PLUM" file the field's own length is asked for, with the totals.
#[test]
fn plum_files_need_room_for_the_totals() {
    let shape = Shape { nx: 2, ny: 3, k: 2 };
    let file = sound_file_as(Mark::Plum, 5, 2, 3, 2).unwrap();
    let (mut field, mut wind) = buffers(shape);
    assert_eq!(read_file(&file, &mut field[..121], &mut wind), Err(4));
    assert!(field.iter().all(|&n| n == 0) && wind.iter().all(|&c| c == 0));
    assert_eq!(read_file(&file, &mut field[..122], &mut wind), Ok(shape));
}

/// The layouts on 2 by 1 with two smokes.
#[test]
fn layouts_by_hand() {
    let shape = Shape { nx: 2, ny: 1, k: 2 };
    assert_eq!((shape.elements_len(), shape.smoke_len()), (20, 21));
    assert_eq!(shape.field_len(), 42);
    assert_eq!((shape.place(1, 0, 0), shape.total_place(1)), (21, 41));
    for (mark, section, table) in [(Mark::Plum, 80, 168), (Mark::Plu2, 84, 176)] {
        assert_eq!(shape.section_len(mark), section);
        assert_eq!(shape.section_offset(mark, 0), 8);
        assert_eq!(shape.section_offset(mark, 1), 8 + section);
        assert_eq!(shape.table_offset(mark), table);
        assert_eq!(shape.file_len(mark), table + 12 + 12);
    }
    assert_eq!((Mark::Plum.bytes(), Mark::Plu2.bytes()), (b"PLUM", b"PLU2"));
}

#[test]
fn tails_too_short() {
    assert_eq!(output(b""), "refused 1\n");
    assert_eq!(output(b"PLUM"), "refused 1\n");
    assert_eq!(output(b"\x01\x01\x00\x00\x00\x00\x00PLUM"), "refused 1\n");
    // Only a tail: the shape is good, the length isn't.
    assert_eq!(output(b"\x01\x01\x01\x00\x2c\0\0\0PLUM"), "refused 3\n");
    assert_eq!(output(b"\x01\x01\x00\x00\x2c\0\0\0PLUM"), "refused 2\n");
    assert_eq!(output(b"\x00\x01\x01\x01\x2c\0\0\0PLUM"), "refused 1\n");
    assert_eq!(output(b"PLU2"), "refused 1\n");
    assert_eq!(output(b"\x01\x01\x01\x00\x30\0\0\0PLU2"), "refused 3\n");
    assert_eq!(output(b"\x01\x01\x00\x00\x30\0\0\0PLU2"), "refused 2\n");
    assert_eq!(output(b"\x00\x01\x01\x01\x30\0\0\0PLU2"), "refused 1\n");
    // Neither mark, though each byte is one of a mark.
    assert_eq!(
        output(b"\x01\x01\x01\x00\x30\x00\x00\x002ULP"),
        "refused 1\n"
    );
}

#[test]
fn a_larger_grid_is_4_and_a_larger_file_is_3() {
    for mark in [Mark::Plum, Mark::Plu2] {
        grids_and_lengths(mark);
    }
}

fn grids_and_lengths(mark: Mark) {
    let program = |nx, ny, k| output(&sound_file_as(mark, 3, nx, ny, k).unwrap());
    assert!(program(64, 2, 8).starts_with("grid 64 2 8\n"));
    assert!(program(2, 64, 8).starts_with("grid 2 64 8\n"));
    assert_eq!(program(43, 3, 1), "refused 4\n");
    assert_eq!(program(64, 3, 8), "refused 4\n");
    assert_eq!(program(64, 64, 1), "refused 3\n");
    // Of 65,536 bytes 1 is met by the mark; one more byte is 3 at once.
    assert_eq!(output(&[0; 65_536]), "refused 1\n");
    assert_eq!(output(&[0; 65_537]), "refused 3\n");
    // Too large a grid is 4 before its winds are looked at.
    let mut file = sound_file_as(mark, 3, 43, 3, 1).unwrap();
    file[1] = 127;
    assert_eq!(output(&file), "refused 4\n");
}

#[test]
fn the_program_prints_smoke_by_smoke() {
    let text = output(&sound_file(8, 3, 2, 2).unwrap());
    let lines: Vec<&str> = text.lines().collect();
    assert_eq!(lines.len(), 1 + 2 * (12 + 1));
    assert_eq!(lines[0], "grid 3 2 2");
    assert!(lines[2].starts_with("face 0 east 1 0 "));
    assert!(lines[4].starts_with("face 0 east 0 1 "));
    assert!(lines[7].starts_with("face 0 north 0 0 "));
    assert!(lines[13].starts_with("total 0 "));
    assert!(lines[14].starts_with("face 1 east 0 0 "));
    assert!(lines[26].starts_with("total 1 ") && text.ends_with('\n'));
    // "total", smoke, total, and the clipped mass (request 2026-04).
    assert_eq!(lines[13].split(' ').count(), 4);
    assert_eq!(lines[26].split(' ').count(), 4);
}
