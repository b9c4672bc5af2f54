//! How much was cut (request 2026-04): closings and steps worked out by hand,
//! and what lists and the program show of them.

mod smokes;

use reference::closing::{close, close_unlevelled, Closed};
use reference::file::encoded;
use reference::{lists, program, step, Shape};
use smokes::smoke;

/// A closing's answer.
fn closed(numbers: [u32; 10], clipped: u64) -> Closed {
    Closed { numbers, clipped }
}

/// Nine numbers that are 0 but for one.
fn only(at: usize, value: i128) -> [i128; 9] {
    let mut nodes = [0; 9];
    nodes[at] = value;
    nodes
}

/// An element that holds its remainder alone.
fn remainder(number: u32) -> [u32; 10] {
    [0, 0, 0, 0, 0, 0, 0, 0, 0, number]
}

/// A corner, an edge and the centre one below 0. The levelling adds nothing
/// while T is less than 36 above the weighted sum −1, −4 or −16.
#[test]
fn a_negative_number_counts_by_its_weight() {
    for (at, weight) in [1, 4, 1, 4, 16, 4, 1, 4, 1].into_iter().enumerate() {
        let psi = only(at, -1);
        for target in [0, 1, 35 - weight] {
            let cut = closed(remainder(target as u32), weight as u64);
            assert_eq!(close(&psi, target), cut);
        }
        // One more levels by 1: the node is 0, the others 1.
        let mut levelled = [1; 10];
        (levelled[at], levelled[9]) = (0, 0);
        assert_eq!(close(&psi, 36 - weight), closed(levelled, 0));
    }
}

/// ψ has no negative number, but levelled by floor((100 − 160) / 36) = −2 all
/// but the centre are −2: P = 128, the weighted sum 128 − 2 · 20 = 88.
#[test]
fn numbers_that_levelling_makes_negative() {
    let cut = closed([0, 0, 0, 0, 6, 0, 0, 0, 0, 4], 40);
    assert_eq!(close(&only(4, 10), 100), cut);
}

/// The weighted sum is 700, so T = 843 levels by floor(143 / 36) = 3, to 2, 1,
/// 0, −1, 53, −3, −4, −5, −6. P = 2 + 4 + 848 = 854, the weighted sum is
/// 700 + 3 · 36 = 808. Some of ψ's negative numbers are above 0 by then.
#[test]
fn numbers_that_stay_negative() {
    let psi = [-1, -2, -3, -4, 50, -6, -7, -8, -9];
    let cut = closed([1, 0, 0, 0, 52, 0, 0, 0, 0, 10], 854 - 808);
    assert_eq!(close(&psi, 843), cut);
}

#[test]
fn nothing_negative_is_0() {
    let psi = [3, 0, 7, 1, 2, 0, 0, 9, 4];
    // The weighted sum is 3 + 7 + 4 + 32 + 36 + 4 = 86.
    let kept = |rest| closed([3, 0, 7, 1, 2, 0, 0, 9, 4, rest], 0);
    assert_eq!(close(&psi, 86), kept(0));
    assert_eq!(close(&psi, 121), kept(35));
    let raised = closed([4, 1, 8, 2, 3, 1, 1, 10, 5, 0], 0);
    assert_eq!(close(&psi, 122), raised);
    // All negative, but not once they are levelled.
    let filled = closed([2, 2, 2, 2, 2, 2, 2, 2, 2, 28], 0);
    assert_eq!(close(&[-1000; 9], 100), filled);
}

/// Document 02, 2026-04: "without levelling it is counted from ψ". The target
/// has no part in it.
#[test]
fn without_levelling_it_is_counted_from_psi() {
    for target in [0, 35, 36, 1000] {
        let all = closed(remainder(target as u32), 180);
        assert_eq!(close_unlevelled(&[-5; 9], target), all);
    }
    // P = 48, the weighted sum 48 − 4 · 2 = 40; with levelling it was 28.
    let psi = [-2, 0, -2, 0, 3, 0, -2, 0, -2];
    let scaled = closed([0, 0, 0, 0, 2, 0, 0, 0, 0, 4], 8);
    assert_eq!(close_unlevelled(&psi, 36), scaled);
    let kept = closed([0, 0, 0, 0, 3, 0, 0, 0, 0, 2], 8);
    assert_eq!(close_unlevelled(&psi, 50), kept);
    // Scaling takes smoke away as well, but it is no truncation.
    let halved = closed([3, 3, 3, 3, 3, 3, 3, 3, 3, 18], 0);
    assert_eq!(close_unlevelled(&[7; 9], 126), halved);
}

/// An element whose three lines along the east wind are alike.
fn element(line: [u32; 3], rest: u32) -> Vec<u32> {
    [line.repeat(3), vec![rest]].concat()
}

/// A smoke of two such elements.
fn lines(west: [u32; 3], east: [u32; 3], remainders: [u32; 2]) -> Vec<u32> {
    smoke(&[element(west, remainders[0]), element(east, remainders[1])].concat())
}

/// A step's answer and report, on a grid of one row and one smoke.
fn stepped(field: &mut [u32], wind: &[i16], nx: usize) -> (Result<u64, u8>, Vec<i32>) {
    let (mut report, mut work) = (vec![99; 2 * nx], vec![99; 64 * nx]);
    let answer = step(field, wind, &mut report, &mut work, nx, 1, 1, 0);
    (answer, report)
}

/// A step of 2 by 1 with both east winds 1024, worked out by hand. North is
/// calm and the lines are alike, so with w the west neighbour's east value
/// t = floor((−3x − 4y + z) / 4 + 3w / 2), floor((x − z) / 4) and
/// floor((−x + 4y − 3z) / 4) for the values x, y, z of a line.
struct ByHand {
    before: [[u32; 3]; 2],
    after: [[u32; 3]; 2],
    remainders: [u32; 2],
    report: [i32; 4],
    clipped: u64,
}

const EAST: [i16; 4] = [1024, 1024, 0, 0];

/// West t0 = 1 −1 −3, t1 = 0 0 −2, t2 = 0 −1 −3; east t0 = 6 0 0, t1 = −3 1
/// −2, t2 = 2 0 0. So ψ is 0 −1 1 and 1 0 −1. G = 19.5, to 20, and −6, both
/// out of the west's 24: 18 and −5. What is held back, 2 and −1, is below 6,
/// so request 2026-05 moves nothing. T = 1 and 23, and nothing is levelled:
/// west P = 6 with a weighted sum of −18, east P = 6 with one of 0.
const BOTH_CUT: ByHand = ByHand {
    before: [[0, 0, 4], [0, 0, 0]],
    after: [[0, 0, 0], [1, 0, 0]],
    remainders: [1, 17],
    report: [18, -5, 0, 0],
    clipped: 24 + 6,
};

/// West t0 = 10 −10 −30, t1 = 5 0 −20, t2 = 1 −6 −24; east t0 = 60 0 0,
/// t1 = −30 15 −15, t2 = 31 2 4. So ψ is 3 −6 15 and 25 3 0. G = 237 and −24,
/// both out of the west's 240: 217 and −22. Held back are 20 and −2, so at the
/// first face the west's nodes rise and the east's fall by 3: 3 −6 18 and
/// 22 3 0. T = 1 and 239. The west is levelled by floor(19 / 36) = 0: P = 126
/// with a weighted sum of −18. The east, levelled by floor(35 / 36) = 0, has
/// nothing negative.
const WEST_CUT: ByHand = ByHand {
    before: [[0, 0, 40], [0, 0, 0]],
    after: [[0, 0, 0], [22, 3, 0]],
    remainders: [1, 35],
    report: [217, -22, 0, 0],
    clipped: 144,
};

/// West t0 = 7 −7 −21, t1 = 3 0 −14, t2 = 0 −5 −17; east t0 = 42 0 0,
/// t1 = −21 10 −11, t2 = 22 2 3. So ψ is 1 −5 10 and 18 3 0. G = 166.5, to 166,
/// and −18, both out of the west's 168: 151 and −16. Held back are 15 and −2,
/// so ψ becomes 1 −5 12 and 16 3 0. T = 1 and 167. The west is levelled by
/// floor(43 / 36) = 1, to 2 −4 13: P = 90 with a weighted sum of −6. The east
/// is levelled by floor(−1 / 36) = −1, to 15 2 −1: P = 138 with one of 132.
const EAST_LEVELLED_DOWN: ByHand = ByHand {
    before: [[0, 0, 28], [0, 0, 0]],
    after: [[0, 0, 0], [15, 2, 0]],
    remainders: [1, 29],
    report: [151, -16, 0, 0],
    clipped: 96 + 6,
};

/// Even smoke in an even wind: nothing is cut.
const NONE_CUT: ByHand = ByHand {
    before: [[7, 7, 7], [7, 7, 7]],
    after: [[7, 7, 7], [7, 7, 7]],
    remainders: [0, 0],
    report: [63, 63, 0, 0],
    clipped: 0,
};

const BY_HAND: [ByHand; 4] = [BOTH_CUT, WEST_CUT, NONE_CUT, EAST_LEVELLED_DOWN];

#[test]
fn steps_by_hand() {
    for case in BY_HAND {
        let mut field = lines(case.before[0], case.before[1], [0, 0]);
        let answer = stepped(&mut field, &EAST, 2);
        assert_eq!(answer, (Ok(case.clipped), case.report.to_vec()));
        assert_eq!(field, lines(case.after[0], case.after[1], case.remainders));
    }
}

/// The field of `WEST_CUT`, but the north winds are 1024 too. Nothing changes
/// from south to north, so Y = 0 and ψ is 3 −6 15 and 25 3 0 as before. Yet
/// each element gives to itself over its north face, by the three nodes of its
/// line: the west's φ0 = 0 0 40, φ1 = 10 −10 10 and φ2 = 3 −3 27 make
/// G = (22 − 4 · 22 + 158) / 4 = 23, the east's 0 0 0, 60 0 0 and 7 3 −4 make
/// G = (88 + 4 · 12 − 16) / 4 = 30, out of nothing. Out of the west's 240 go
/// 237 + 24 + 23 = 284: 200, −20 and 19. So 37, −4, 4 and 30 are held back, and
/// q is 6, 0, 0 and 5. The west becomes 3 −6 21: T = 20 levels it by 0, P = 144
/// with a weighted sum of 0, and scaling leaves 0 0 2. The east becomes 19 3 0,
/// then by its own north face 14 −2 −5 in the south and 24 8 5 in the north:
/// T = 220 levels it by 0, P = 14 + 4 · 31 + 61 = 199 with a weighted sum of
/// 186.
#[test]
fn amounts_of_elements_to_themselves() {
    let mut field = lines([0, 0, 40], [0, 0, 0], [0, 0]);
    let answer = stepped(&mut field, &[1024; 4], 2);
    assert_eq!(answer, (Ok(144 + 13), vec![200, -20, 19, 0]));
    let east = vec![14, 0, 0, 19, 3, 0, 24, 8, 5, 21];
    assert_eq!(field, smoke(&[element([0, 0, 2], 8), east].concat()));
}

/// One element is its own neighbour, so T = M, the remainder among it. In an
/// east wind of 1024 the line 0 0 4 has t0 = 7 −1 −3, t1 = −3 1 −4, t2 = 2 −1
/// −2. So ψ is 2 −1 1: P = 18 with a weighted sum of −6. From T = 30 on the
/// levelling adds 1, to 3 0 2.
#[test]
fn the_remainder_decides_the_levelling() {
    let (cut, kept) = ([2, 0, 1], [3, 0, 2]);
    for (rest, line, left, clipped) in [
        (0, cut, 6, 24),
        (5, cut, 11, 24),
        (6, kept, 0, 0),
        (35, kept, 29, 0),
    ] {
        let mut field = smoke(&element([0, 0, 4], rest));
        let answer = stepped(&mut field, &[1024, 0], 1);
        assert_eq!(answer, (Ok(clipped), vec![20, 0]));
        assert_eq!(field, smoke(&element(line, left)));
    }
}

/// Nothing flows, so ψ = φ and T = M, and a remainder below 36 levels by 0.
#[test]
fn a_calm_step_cuts_nothing() {
    let mut field = lines([0, 0, 9_000_000], [1, 0, 2], [35, 34]);
    let before = field.clone();
    let answer = stepped(&mut field, &[0; 4], 2);
    assert_eq!((answer, field), ((Ok(0), vec![0; 4]), before));
}

/// Each figure is its own step's: the second step of smoke 0 doesn't add to
/// the first, and what smoke 1 lost isn't among it.
#[test]
fn a_list_shows_the_figures() {
    let script = "grid 2 1 2\nwind east 0 0 1024\nwind east 1 0 1024\n\
                  load 0 0 0 4 0 0 4 0 0 4 0 0 0 0 0 0 0 0 0\n\
                  load 1 0 0 40 0 0 40 0 0 40 0 0 0 0 0 0 0 0 0\n\
                  step 0\nstep 1\nload 0 0 0 4 0 0 4 0 0 4 0 0 0 0 0 0 0 0 0\nstep 0\n\
                  emission 0 0 0 1\nwithdrawal 0 1 0 23\nwithdrawal 0 1 0 1\nstep 2\n";
    let printed = "accepted\naccepted\naccepted\naccepted\n\
                   accepted 18 -5 0 0 clipped 30\naccepted 217 -22 0 0 clipped 144\n\
                   accepted\naccepted 18 -5 0 0 clipped 30\n\
                   accepted clipped 0\naccepted clipped 0\nrefused 10\nrefused 7\n\
                   field 0 0 0 0 0 0 0 0 0 2 0 0 0 0 0 0 0 0 0 0 2 \
                   0 0 0 0 0 0 0 0 0 1 22 3 0 22 3 0 22 3 0 35 240\n\
                   wind 1024 1024 0 0\n";
    assert_eq!(lists::output(script).unwrap(), printed);
}

/// Document 02, 2026-04: "The program's total line gets it as a last field".
#[test]
fn the_program_shows_the_figures() {
    let field = BY_HAND.map(|case| lines(case.before[0], case.before[1], [0, 0]));
    let shape = Shape { nx: 2, ny: 1, k: 4 };
    let text = program::output(&encoded(&field.concat(), &EAST, shape));
    let mut expected = "grid 2 1 4\n".to_string();
    for (smoke, sum) in [24, 240, 504, 168].into_iter().enumerate() {
        let [west, east, ..] = BY_HAND[smoke].report;
        let clipped = BY_HAND[smoke].clipped;
        expected += &format!(
            "face {smoke} east 0 0 {west}\nface {smoke} east 1 0 {east}\n\
             face {smoke} north 0 0 0\nface {smoke} north 1 0 0\n\
             total {smoke} {sum} {clipped}\n"
        );
    }
    assert_eq!(text, expected);
}
