//! Held smoke stays by its face (request 2026-05): shares, nodes and steps
//! worked out by hand.

mod smokes;

use reference::held::{keep_by_faces, share, Held};
use reference::step::step_with;
use reference::{step, Shape};
use smokes::smoke;

/// "q = d / 6 truncated toward zero", with d = G − G*. Floor would give −1 for
/// −5 and −2 for −7.
#[test]
fn a_share_is_truncated_toward_zero() {
    for (d, q) in [
        (0, 0),
        (1, 0),
        (5, 0),
        (6, 1),
        (7, 1),
        (11, 1),
        (12, 2),
        (-1, 0),
        (-5, 0),
        (-6, -1),
        (-7, -1),
        (-11, -1),
        (-12, -2),
        (-600_000_005, -100_000_000),
    ] {
        assert_eq!(share(d, 0), q);
        // G and G* have one sign, and G* is the smaller.
        assert_eq!(share(d + 40 * d.signum(), 40 * d.signum()), q);
    }
}

/// Numbers that are all different, so that a change shows where it is.
fn psi(elements: usize) -> Vec<[i128; 9]> {
    let element = |at| std::array::from_fn(|n| 100 * at as i128 + 10 * n as i128 - 70);
    (0..elements).map(element).collect()
}

/// What the rule adds to each element's nodes where the faces named hold back
/// these amounts.
fn added(shape: Shape, held: &[(usize, i128)]) -> Vec<[i128; 9]> {
    let mut moved = vec![0; shape.wind_len()];
    // Some faces are uncut, with an amount of either sign.
    (moved[0], moved[shape.wind_len() - 1]) = (50, -50);
    let mut amounts = moved.clone();
    for &(face, d) in held {
        amounts[face] = moved[face] + d;
    }
    let (before, mut after) = (psi(shape.elements()), psi(shape.elements()));
    keep_by_faces(shape, &mut after, &amounts, &moved);
    let difference = |at: usize| std::array::from_fn(|n| after[at][n] - before[at][n]);
    (0..before.len()).map(difference).collect()
}

const NONE: [i128; 9] = [0; 9];

/// The nodes of a column, a = 0 or 2, or of a row, b = 0 or 2. The middle one
/// has the weight 4 but gets the same q as the others.
fn column(a: usize, q: i128) -> [i128; 9] {
    std::array::from_fn(|n| if n % 3 == a { q } else { 0 })
}

fn row(b: usize, q: i128) -> [i128; 9] {
    std::array::from_fn(|n| if n / 3 == b { q } else { 0 })
}

/// Face 1 of 3 by 2 lies between elements 1 and 2, face 6 + 1 between 1 and 4.
#[test]
fn the_three_nodes_change_alike() {
    let shape = Shape { nx: 3, ny: 2, k: 1 };
    for (d, q) in [(23, 3), (-23, -3), (5, 0), (-5, 0)] {
        let mut expected = [NONE; 6];
        (expected[1], expected[2]) = (column(2, q), column(0, -q));
        assert_eq!(added(shape, &[(1, d)]), expected);
        let mut expected = [NONE; 6];
        (expected[1], expected[4]) = (row(2, q), row(0, -q));
        assert_eq!(added(shape, &[(7, d)]), expected);
    }
    assert_eq!(added(shape, &[]), [NONE; 6]);
}

/// The last column's east neighbour is the first, the last row's north
/// neighbour the first.
#[test]
fn faces_at_the_rim_wrap() {
    let shape = Shape { nx: 3, ny: 2, k: 1 };
    let mut expected = [NONE; 6];
    (expected[2], expected[0]) = (column(2, 2), column(0, -2));
    assert_eq!(added(shape, &[(2, 12)]), expected);
    let mut expected = [NONE; 6];
    (expected[5], expected[2]) = (row(2, -2), row(0, 2));
    assert_eq!(added(shape, &[(6 + 5, -12)]), expected);
}

/// Element 0 of 3 by 2: its east face gives 4, its north face −3, its west
/// face (2) 10 and its south face (6 + 3) 20. So the sides add 4, −3, −10 and
/// −20, and each corner gets two of them.
#[test]
fn a_corner_on_two_cut_faces_gets_both() {
    let shape = Shape { nx: 3, ny: 2, k: 1 };
    let faces = [(0, 24), (6, -18), (2, 60), (9, 120)];
    let all = added(shape, &faces);
    let by_hand = [[-10 - 20, -20, 4 - 20], [-10, 0, 4], [-10 - 3, -3, 4 - 3]];
    assert_eq!(all[0][..], by_hand.concat());
    // The neighbours, each by its own face alone but for 3, which has both
    // the north face of 0 and its own.
    assert_eq!((all[1], all[2]), (column(0, -4), column(2, 10)));
    let both: [i128; 9] = std::array::from_fn(|n| row(0, 3)[n] + row(2, 20)[n]);
    assert_eq!(all[3], both);
    assert_eq!(all[4..], [NONE; 2]);
}

/// East holds back 19, so the east nodes rise and the west nodes fall by 3.
/// North holds back −13, so the north nodes fall and the south nodes rise by 2.
#[test]
fn one_element_at_both_ends() {
    let shape = Shape { nx: 1, ny: 1, k: 1 };
    let by_hand = [[-3 + 2, 2, 3 + 2], [-3, 0, 3], [-3 - 2, -2, 3 - 2]];
    let all = added(shape, &[(0, 19), (1, -13)]);
    assert_eq!(all[0][..], by_hand.concat());
    // Only one of the two numbers of elements is 1.
    let tall = Shape { nx: 1, ny: 2, k: 1 };
    let both: [i128; 9] = std::array::from_fn(|n| column(2, 3)[n] + column(0, -3)[n]);
    assert_eq!(added(tall, &[(0, 19)]), [both, NONE]);
    let wide = Shape { nx: 2, ny: 1, k: 1 };
    let both: [i128; 9] = std::array::from_fn(|n| row(2, 3)[n] + row(0, -3)[n]);
    assert_eq!(added(wide, &[(3, 19)]), [NONE, both]);
}

/// An element's rows, south first, then its remainder.
fn element(rows: [[u32; 3]; 3], rest: u32) -> Vec<u32> {
    [&rows.concat()[..], &[rest]].concat()
}

type Given = (Vec<u32>, Result<u64, u8>, Vec<i32>);

/// A step on a grid of one row and one smoke: the field, figure and report,
/// first with held smoke levelled, then with held smoke by its face.
fn steps(before: &[u32], wind: &[i16], nx: usize) -> [Given; 2] {
    [Held::Levelled, Held::ByItsFace].map(|held| {
        let mut field = before.to_vec();
        let (mut report, mut work) = (vec![99; 2 * nx], vec![0; 64 * nx]);
        let (lent, work) = (&mut report, &mut work);
        let answer = step_with(held, &mut field, wind, lent, work, nx, 1, 1, 0);
        (field, answer, report)
    })
}

/// One element with rows 0 0 32 in an east wind of 1024 and a north wind of
/// −1024. Rows are alike, so Y = 0, and with z its own west neighbour
/// t0 = 56 −8 −24, t1 = −20 12 −28, t2 = 25 −3 −16, so ψ is 22 −2 12. With
/// φ1 = 56 −8 8 and φ2 = 9 1 19 the face sums are 6 · (32 + 76 + 8) = 696 and
/// 92 − 4 · 4 + 116 = 192, and G = 174 and −48, out of 192: 150 and −41.
///
/// Levelled by floor((192 − 156) / 36) = 1, ψ is 23 −1 13: P = 216 with a
/// weighted sum of 192. Scaled by 192 / 216 that is 20 0 11.
///
/// By its face 24 and −7 are held back: q = 4 and −1. So ψ is 19 −1 17 in the
/// south, 18 −2 16 and 17 −3 15. That levels by 1 as well, to 20 0 18, 19 −1 17
/// and 18 −2 16: P = 38 + 4 · 36 + 34 = 216 with a weighted sum of 192. A floor
/// instead of −1, −2, would give 16 0 16 in the north.
#[test]
fn a_step_of_one_element() {
    let before = smoke(&element([[0, 0, 32]; 3], 0));
    let [levelled, by_its_face] = steps(&before, &[1024, -1024], 1);
    let report = vec![150, -41];
    let field = smoke(&element([[20, 0, 11]; 3], 6));
    assert_eq!(levelled, (field, Ok(24), report.clone()));
    let field = smoke(&element([[17, 0, 16], [16, 0, 15], [16, 0, 14]], 5));
    assert_eq!(by_its_face, (field, Ok(24), report));
}

/// Rows 0 0 40 beside an empty element, both east winds 1024. ψ is 3 −6 15 and
/// 25 3 0, and G = 237 and −24 is cut to 217 and −22, so T = 1 and 239.
///
/// Levelled, the west is 4 −5 16, P = 120 with a weighted sum of 0, and scales
/// to nothing; the east stays 25 3 0.
///
/// By its face the 20 of the first face make q = 3: 3 −6 18, P = 126 with one
/// of −18, and 22 3 0. The −2 of the second make none. The figure is taken
/// after the rule: 144, not 120.
#[test]
fn the_figure_is_taken_after_the_rule() {
    let before = smoke(&[element([[0, 0, 40]; 3], 0), element([[0; 3]; 3], 0)].concat());
    let [levelled, by_its_face] = steps(&before, &[1024, 1024, 0, 0], 2);
    let report = vec![217, -22, 0, 0];
    let field = |line, rest| smoke(&[element([[0; 3]; 3], 1), element([line; 3], rest)].concat());
    assert_eq!(levelled, (field([25, 3, 0], 17), Ok(120), report.clone()));
    assert_eq!(by_its_face, (field([22, 3, 0], 35), Ok(144), report));
}

/// Rows 0 0 4 in the same winds: G = 20 and −6 is cut to 18 and −5. Cut faces
/// that hold back less than 6 keep no share.
#[test]
fn a_small_cut_changes_nothing() {
    let before = smoke(&[element([[0, 0, 4]; 3], 0), element([[0; 3]; 3], 0)].concat());
    let [levelled, by_its_face] = steps(&before, &[1024, 1024, 0, 0], 2);
    assert_eq!(levelled.2, [18, -5, 0, 0]);
    assert_eq!(levelled, by_its_face);
}

/// The step that callers reach follows the rule.
#[test]
fn the_step_keeps_held_smoke_by_its_face() {
    let mut field = smoke(&element([[0, 0, 32]; 3], 0));
    let (mut report, mut work) = ([99; 2], [0; 64]);
    let wind = [1024, -1024];
    let answer = step(&mut field, &wind, &mut report, &mut work, 1, 1, 1, 0);
    assert_eq!((answer, report), (Ok(24), [150, -41]));
    let by_its_face = smoke(&element([[17, 0, 16], [16, 0, 15], [16, 0, 14]], 5));
    assert_eq!(field, by_its_face);
}
