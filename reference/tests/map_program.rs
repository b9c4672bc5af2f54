//! The map program (request 2026-03): pages in order and without a step, the
//! program's refusals and limits, and the command itself.

mod smokes;

use reference::file::{encoded, Mark};
use reference::random_file::{damaged, sound_file, sound_file_as, KINDS, STORED_KINDS};
use reference::{map_program, program, Shape};
use smokes::smoke;
use std::io::Write;
use std::process::{Command, Output, Stdio};

/// A file of 2 by 1 with two smokes. The strongest east wind would move the
/// first smoke out of the west element.
fn file() -> Vec<u8> {
    let first = [[7, 7, 7, 7, 7, 7, 7, 7, 7, 5], [0; 10]];
    let second = [
        [100, 0, 0, 0, 0, 0, 0, 0, 0, 0],
        [0, 0, 0, 0, 1000, 0, 0, 0, 0, 35],
    ];
    let field = [first, second].map(|elements| smoke(&elements.concat()));
    let shape = Shape { nx: 2, ny: 1, k: 2 };
    encoded(&field.concat(), &[1024, 1024, 0, 0], shape)
}

const PAGES: [&str; 6] = [
    "            0         1                                                  \n",
    "  0       257         0                                                  \n",
    "sum                                                                   257\n",
    "            0         1                                                  \n",
    "  0       100     16035                                                  \n",
    "sum                                                                 16135\n",
];

#[test]
fn pages_of_all_smokes_without_a_step() {
    assert_eq!(map_program::output(&file()), PAGES.concat());
    // The program does step: smoke leaves the west element.
    let stepped = program::output(&file());
    assert!(stepped.starts_with("grid 2 1 2\nface 0 east 0 0 63\n"));
}

#[test]
fn damage_is_refused_as_the_program_refuses_it() {
    let plum = KINDS.map(|kind| (Mark::Plum, kind));
    let plu2 = [&KINDS[..], &STORED_KINDS].concat();
    let plu2 = plu2.into_iter().map(|kind| (Mark::Plu2, kind));
    for (mark, kind) in plum.into_iter().chain(plu2) {
        for seed in 0..60 {
            let (nx, ny, k) = [(1, 1, 1), (8, 3, 2), (64, 2, 8)][seed as usize % 3];
            let mut file = sound_file_as(mark, seed, nx, ny, k).unwrap();
            damaged(&mut file, Shape { nx, ny, k }, kind, seed).unwrap();
            let refused = map_program::output(&file);
            assert!(refused.starts_with("refused "), "{kind} {refused}");
            assert_eq!(refused, program::output(&file));
        }
    }
}

/// A fault of the last smoke is found before the first page is printed.
#[test]
fn a_refusal_stands_alone() {
    let shape = Shape { nx: 2, ny: 1, k: 2 };
    let mut bytes = file();
    let at = shape.table_offset(Mark::Plu2) - 8;
    assert_eq!(bytes[at..at + 6], [35, 0, 0, 0, 0x07, 0x3f]);
    // A remainder above 35, with its total 16,136.
    (bytes[at], bytes[at + 4]) = (36, 0x08);
    assert_eq!(map_program::output(&bytes), "refused 6\n");
    // A total that isn't the sum.
    bytes[at] = 35;
    assert_eq!(map_program::output(&bytes), "refused 6\n");
    // No step is made, but file reading searches the winds.
    let mut bytes = file();
    bytes[..2].copy_from_slice(&1025_i16.to_le_bytes());
    assert_eq!(map_program::output(&bytes), "refused 5\n");
}

#[test]
fn a_larger_grid_is_4_and_a_larger_file_is_3() {
    let printed = |nx, ny, k| map_program::output(&sound_file(3, nx, ny, k).unwrap());
    assert_eq!(printed(64, 2, 8).len(), 8 * 31 * 74);
    assert_eq!(printed(2, 64, 8).len(), 8 * 66 * 74);
    assert_eq!(printed(43, 3, 1), "refused 4\n");
    assert_eq!(printed(64, 3, 8), "refused 4\n");
    assert_eq!(printed(64, 64, 1), "refused 3\n");
    assert_eq!(map_program::output(&[0; 65_536]), "refused 1\n");
    assert_eq!(map_program::output(&[0; 65_537]), "refused 3\n");
    // The end of a good file doesn't help where the whole is too long.
    let long = [vec![0; 65_537 - file().len()], file()].concat();
    assert_eq!(map_program::output(&long), "refused 3\n");
    assert_eq!(map_program::output(b""), "refused 1\n");
}

/// The lent page is long enough for every grid that the lent field holds.
#[test]
fn every_grid_of_128_elements_has_its_pages() {
    for nx in 1..=64 {
        for ny in 1..=64.min(128 / nx) {
            let text = map_program::output(&sound_file(7, nx, ny, 2).unwrap());
            let lines = ((nx + 6) / 7 * (ny + 1) + 1) * 2;
            assert_eq!(text.len(), lines * 74, "{nx} {ny}");
            assert!(text.lines().all(|line| line.len() == 73));
        }
    }
}

/// Runs the executable with the words and the input.
fn run(words: &[&str], input: &[u8]) -> Output {
    let mut child = Command::new(env!("CARGO_BIN_EXE_reference"))
        .args(words)
        .stdin(Stdio::piped())
        .stdout(Stdio::piped())
        .stderr(Stdio::piped())
        .spawn()
        .unwrap();
    child.stdin.take().unwrap().write_all(input).unwrap();
    child.wait_with_output().unwrap()
}

#[test]
fn the_map_command() {
    let mut refused = file();
    refused.pop();
    for (input, expected) in [
        (file(), PAGES.concat()),
        (refused, "refused 1\n".to_string()),
        (vec![0; 65_537], "refused 3\n".to_string()),
    ] {
        let output = run(&["map"], &input);
        assert!(output.status.success());
        assert_eq!(String::from_utf8(output.stdout).unwrap(), expected);
        assert_eq!(output.stderr, b"");
    }
}
