//! The maps beside a step (request 2026-05): an example in which held smoke
//! used to reach the far side of its element, and what is refused.

use reference::held_map::output;
use std::io::Write;
use std::process::{Command, Stdio};

/// On 4 by 4, element (1, 2) holds 1200 at its south side. The wind over that
/// side brings 1022 of it into element (1, 1), which is empty at the start, so
/// nothing may leave that one: over its east face G = 216 and G* = 0.
fn example() -> String {
    let mut numbers = vec![0; 9 * 16];
    let place = 9 * (4 * 2 + 1);
    (numbers[place + 1], numbers[place + 2]) = (200, 400);
    let numbers: Vec<String> = numbers.iter().map(u32::to_string).collect();
    let load = numbers.join(" ");
    format!("grid 4 4 1\nwind east 1 1 1024\nwind north 1 1 -768\nload 0 {load}\nstep 0\n")
}

type Rows = [[u32; 3]; 3];

/// The nodal values of an element in each of the three maps, northmost first.
fn element(text: &str, i: usize, j: usize) -> Vec<Rows> {
    let lines: Vec<&str> = text.lines().collect();
    let row = |line: usize| -> [u32; 3] {
        let cell = lines[line].split('|').nth(i).unwrap();
        let numbers = cell.split_whitespace().map(|word| word.parse().unwrap());
        numbers.collect::<Vec<u32>>().try_into().unwrap()
    };
    // A map is a title, four times three lines with three rules between them,
    // and a blank line.
    let rows = |map: usize| std::array::from_fn(|b| row(17 * map + 1 + 4 * (3 - j) + b));
    (0..3).map(rows).collect()
}

/// ψ of element (1, 1) is 0 −4 −7, 0 5 12 and 0 112 226 from the south. Held
/// levelled, T = 1022 levels it by floor((1022 − 779) / 36) = 6. By its face
/// q = 36 takes up all of the 216, and the levelling adds 0.
#[test]
fn held_smoke_leaves_the_far_side() {
    let text = output(&example()).unwrap();
    let [before, levelled, by_its_face] = element(&text, 1, 1).try_into().unwrap();
    assert_eq!(before, [[0; 3]; 3]);
    assert_eq!(levelled, [[6, 118, 232], [6, 11, 18], [6, 2, 0]]);
    assert_eq!(by_its_face, [[0, 112, 262], [0, 5, 48], [0, 0, 29]]);
    // The donor in the north isn't cut, and nothing reaches the east.
    let [before, levelled, by_its_face] = element(&text, 1, 2).try_into().unwrap();
    assert_eq!(before, [[0; 3], [0; 3], [0, 200, 400]]);
    assert_eq!(levelled, [[0, 7, 14], [0, 0, 0], [0, 22, 44]]);
    assert_eq!(by_its_face, levelled);
    assert_eq!(element(&text, 2, 1), [[[0; 3]; 3]; 3]);
}

#[test]
fn the_whole_text_of_two_elements() {
    let script = "grid 2 1 1\nwind east 0 0 1024\nwind east 1 0 1024\n\
                  load 0 0 0 40 0 0 40 0 0 40 0 0 0 0 0 0 0 0 0\nstep 0\n";
    let expected = "before the step\n\
                    \x20 0  0 40 |  0  0  0\n\
                    \x20 0  0 40 |  0  0  0\n\
                    \x20 0  0 40 |  0  0  0\n\n\
                    after it, held smoke levelled\n\
                    \x20 0  0  0 | 25  3  0\n\
                    \x20 0  0  0 | 25  3  0\n\
                    \x20 0  0  0 | 25  3  0\n\n\
                    after it, held smoke by its face\n\
                    \x20 0  0  0 | 22  3  0\n\
                    \x20 0  0  0 | 22  3  0\n\
                    \x20 0  0  0 | 22  3  0\n";
    assert_eq!(output(script).unwrap(), expected);
}

#[test]
fn a_script_must_end_with_a_step() {
    for script in ["grid 1 1 1\n", "grid 1 1 1\nstep 0\ntotal 0\n"] {
        assert_eq!(output(script).unwrap_err(), "the last call must be a step");
    }
    assert!(output("grid 1 1 1\nstep\n").is_err());
    assert_eq!(output("grid 1 1 1\nstep 1\n").unwrap(), "refused 7\n");
    assert_eq!(output("grid 0 1 1\nstep 0\n").unwrap(), "refused 2\n");
}

#[test]
fn the_held_command() {
    for (script, good) in [(example(), true), ("grid 1 1 1\n".to_string(), false)] {
        let mut child = Command::new(env!("CARGO_BIN_EXE_reference"))
            .arg("held")
            .stdin(Stdio::piped())
            .stdout(Stdio::piped())
            .stderr(Stdio::null())
            .spawn()
            .unwrap();
        let mut input = child.stdin.take().unwrap();
        input.write_all(script.as_bytes()).unwrap();
        drop(input);
        let printed = child.wait_with_output().unwrap();
        assert_eq!(printed.status.success(), good);
        let expected = output(&script).unwrap_or_default();
        assert_eq!(String::from_utf8(printed.stdout).unwrap(), expected);
    }
}
