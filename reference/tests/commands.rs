//! The commands that make files and scripts.

use reference::random_file::{damaged, sound_file_as, KINDS, STORED_KINDS};
use reference::{generator, unsound_generator, Mark, Shape};
use std::process::{Command, Output};

const SHAPE: Shape = Shape { nx: 3, ny: 2, k: 2 };

fn run(words: &[&str]) -> Output {
    let mut command = Command::new(env!("CARGO_BIN_EXE_reference"));
    command.args(words).output().unwrap()
}

/// `field` makes "PLU2" files, `field-plum` those of the older mark (request
/// 2026-06).
#[test]
fn files_of_both_marks() {
    for (command, mark) in [("field", Mark::Plu2), ("field-plum", Mark::Plum)] {
        let sound = sound_file_as(mark, 7, 3, 2, 2).unwrap();
        assert_eq!(sound[sound.len() - 4..], *mark.bytes());
        assert_eq!(run(&[command, "7", "3", "2", "2"]).stdout, sound);
        for kind in KINDS.iter().chain(&STORED_KINDS) {
            let printed = run(&[command, "7", "3", "2", "2", kind]);
            let mut file = sound.clone();
            match damaged(&mut file, SHAPE, kind, 7) {
                Ok(()) => assert_eq!(printed.stdout, file),
                Err(_) => assert_eq!(printed.status.code(), Some(2)),
            }
        }
        assert_eq!(run(&[command, "7", "3", "2", "9"]).status.code(), Some(2));
    }
}

#[test]
fn scripts_of_both_generators() {
    let sound = generator::script(7, 3, 2, 2, 90).unwrap();
    let unsound = unsound_generator::script(7, 3, 2, 2, 90).unwrap();
    for (command, script, pokes) in [("random", sound, false), ("random-unsound", unsound, true)] {
        let printed = run(&[command, "7", "3", "2", "2", "90"]);
        assert_eq!(String::from_utf8(printed.stdout).unwrap(), script);
        assert_eq!(script.lines().count(), 91);
        assert_eq!(script.contains("\npoke "), pokes);
    }
}
