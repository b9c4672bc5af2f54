//! How much was cut (request 2026-04), on random input: closings and steps
//! held to a second reading, and emissions and withdrawals that cut nothing.

mod fields;
mod random;
mod rounding;
mod second;

use fields::{buffers, seeded};
use random::calls;
use reference::checks::smoke_part;
use reference::closing::{close, close_unlevelled, level, weighted};
use reference::lists::{Answer, Call, State};
use reference::rng::Rng;
use reference::{emission, mass, step, total, withdrawal, Shape};
use second::{below_zero, Reading, Stepped};

/// Signed ψ of some size, about a middle that may lie below 0.
fn psi(rng: &mut Rng) -> [i64; 9] {
    let size = rng.pick(&[1, 4, 40, 4000, 3_000_000]);
    let middle = rng.below(2 * size + 1) as i64 - size as i64;
    std::array::from_fn(|_| middle + rng.below(2 * size + 1) as i64 - size as i64)
}

/// 1 or 0: is a closing levelled by a negative amount, and is it scaled?
fn ways(psi: &[i128; 9], target: i128) -> (usize, usize) {
    let levelled = level(psi, target);
    let p = weighted(&levelled.map(|value| value.max(0)));
    (usize::from(levelled[0] < psi[0]), usize::from(p > target))
}

#[test]
fn closings_are_those_of_the_second_reading() {
    let mut rng = Rng::new(1);
    // Those with a figure above 0 by their ways, and those with none.
    let (mut above, mut none) = ([[0; 2]; 2], 0);
    for _ in 0..200_000 {
        let psi = psi(&mut rng);
        let wide = psi.map(i128::from);
        let target = rng.pick(&[40, 4000, 100_000_000]);
        let target = rng.below(target + 1) as i64;
        let closed = close(&wide, target.into());
        assert_eq!(closed.clipped, below_zero(&psi, target));
        // Levelled already or not, it is one piece of code.
        let levelled = level(&wide, target.into());
        assert_eq!(close_unlevelled(&levelled, target.into()), closed);
        let negative = levelled.iter().any(|&value| value < 0);
        assert_eq!(closed.clipped > 0, negative);
        match negative {
            true => {
                let (down, scaled) = ways(&wide, target.into());
                above[down][scaled] += 1;
            }
            false => none += 1,
        }
    }
    assert!(above.concat().iter().all(|&met| met > 1000), "{above:?}");
    assert!(none > 10_000, "{none}");
}

/// Counted from ψ it is what ψ holds below 0, whatever the target.
#[test]
fn closings_without_levelling() {
    let mut rng = Rng::new(2);
    for _ in 0..100_000 {
        let psi = psi(&mut rng).map(i128::from);
        let weights = [1, 4, 1, 4, 16, 4, 1, 4, 1];
        let missing = |n: usize| weights[n] * (-psi[n]).max(0);
        let missing: i128 = (0..9).map(missing).sum();
        for target in [0, 35, i128::from(rng.below(100_000_001))] {
            let closed = close_unlevelled(&psi, target);
            assert_eq!(i128::from(closed.clipped), missing);
        }
    }
}

/// Document 02, 2026-04: "which is always 0 there".
#[test]
fn emissions_and_withdrawals_in_lists_are_0() {
    let (mut emissions, mut withdrawals) = (0, 0);
    for (seed, shape) in seeded(80) {
        let Shape { nx, ny, k } = shape;
        let mut state = State::new(nx, ny, k);
        for call in calls(4000 + seed, (nx, ny, k)) {
            match (&call, state.run(&call)) {
                (_, Answer::Refused(_)) => {}
                (Call::Emission(..), answer) => {
                    assert_eq!(answer, Answer::Closed(0));
                    emissions += 1;
                }
                (Call::Withdrawal(..), answer) => {
                    assert_eq!(answer, Answer::Closed(0));
                    withdrawals += 1;
                }
                _ => {}
            }
        }
    }
    assert!(emissions > 2000, "{emissions} emissions");
    assert!(withdrawals > 2000, "{withdrawals} withdrawals");
}

/// The same on random fields, with every element's least and most.
#[test]
fn emissions_and_withdrawals_of_every_element_are_0() {
    let mut rng = Rng::new(3);
    for (seed, shape) in seeded(400) {
        let Shape { nx, ny, k } = shape;
        let (field, _) = buffers(seed, shape);
        for at in 0..shape.elements() {
            let (smoke, i, j) = (rng.index(k), at % nx, at / nx);
            let room = 100_000_000 - total(&field, nx, ny, k, smoke).unwrap();
            for q in [0, 1, 35, 36, room, rng.below(room + 1)] {
                let answer = emission(&mut field.clone(), nx, ny, k, smoke, i, j, q.min(room));
                assert_eq!(answer, Ok(0));
            }
            let held = mass(&field, nx, ny, k, smoke, i, j).unwrap();
            for q in [0, 1, held, rng.below(held + 1)] {
                let answer = withdrawal(&mut field.clone(), nx, ny, k, smoke, i, j, q.min(held));
                assert_eq!(answer, Ok(0));
            }
        }
    }
}

/// How often a step's figure was above 0.
#[derive(Default)]
struct Met {
    steps: u64,
    above: u64,
    largest: u64,
    /// Steps in which more than one element has a part in the figure.
    shared: u64,
    /// Steps with a figure above 0 in which a face is cut.
    cut: u64,
}

impl Met {
    /// Holds the figure to the sum over the elements, and the part and the
    /// report to the second reading's.
    fn count(&mut self, clipped: u64, part: &[u32], report: &[i32], second: &Stepped) {
        assert_eq!(clipped, second.clipped.iter().sum::<u64>());
        assert_eq!((part, report), (&second.numbers[..], &second.report[..]));
        self.steps += 1;
        self.above += u64::from(clipped > 0);
        self.largest = self.largest.max(clipped);
        let parts = second.clipped.iter().filter(|&&part| part > 0).count();
        self.shared += u64::from(parts > 1);
        self.cut += u64::from(clipped > 0 && second.has_cut_face());
    }

    /// Tells it (shown by `cargo test -- --nocapture`), and that enough steps
    /// had a figure and enough had none.
    fn tell(&self, what: &str) {
        let Met { steps, above, .. } = *self;
        let (largest, shared, cut) = (self.largest, self.shared, self.cut);
        println!("{what}: {above} of {steps} steps above 0, {shared} from several elements");
        println!("{what}: {cut} of those above 0 with a cut face, largest {largest}");
        assert!(above > 500 && shared > 500 && steps - above > 20);
        assert!(cut > 500 && above - cut > 100);
    }
}

/// Document 02, 2026-04: "A step gives the sum of this over its elements, in
/// its result."
#[test]
fn steps_in_lists_are_those_of_the_second_reading() {
    let mut met = Met::default();
    for (seed, shape) in seeded(80) {
        let Shape { nx, ny, k } = shape;
        let mut state = State::new(nx, ny, k);
        for call in calls(5000 + seed, (nx, ny, k)) {
            let before = state.field.clone();
            if let (Call::Step(smoke), Answer::Stepped(report, clipped)) = (&call, state.run(&call))
            {
                let wind = &state.wind;
                let part = smoke_part(&state.field, shape, *smoke);
                let second = Reading { shape, wind }.step(smoke_part(&before, shape, *smoke), true);
                met.count(clipped, part, &report, &second);
            }
        }
    }
    met.tell("lists");
}

#[test]
fn steps_of_files_are_those_of_the_second_reading() {
    let mut met = Met::default();
    for (seed, shape) in seeded(800) {
        let Shape { nx, ny, k } = shape;
        let (mut field, wind) = buffers(6000 + seed, shape);
        let (mut report, mut work) = (vec![0; shape.wind_len()], vec![0; shape.work_len()]);
        for smoke in 0..k {
            let reading = Reading { shape, wind: &wind };
            let second = reading.step(smoke_part(&field, shape, smoke), true);
            let answer = step(&mut field, &wind, &mut report, &mut work, nx, ny, k, smoke);
            let part = smoke_part(&field, shape, smoke);
            met.count(answer.unwrap(), part, &report, &second);
        }
    }
    met.tell("files");
}
