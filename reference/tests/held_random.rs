//! Held smoke stays by its face (request 2026-05), on random steps. Each is
//! made with held smoke levelled, as before the request, and with held smoke
//! by its face, and both are held to a second reading.

mod fields;
mod random;
mod rounding;
mod second;

use fields::{buffers, seeded};
use random::calls;
use reference::checks::{element_mass, smoke_part};
use reference::held::Held;
use reference::lists::{Call, State};
use reference::step::step_with;
use reference::Shape;
use second::{Reading, Stepped};

/// A smoke's numbers after a step, the report and the figure.
#[derive(Debug, PartialEq)]
struct Given {
    part: Vec<u32>,
    report: Vec<i32>,
    clipped: u64,
}

fn given(held: Held, shape: Shape, field: &[u32], wind: &[i16], smoke: usize) -> Given {
    let Shape { nx, ny, k } = shape;
    let mut after = field.to_vec();
    let (mut report, mut work) = (vec![99; shape.wind_len()], vec![0; shape.work_len()]);
    let (lent, work) = (&mut report, &mut work);
    let clipped = step_with(held, &mut after, wind, lent, work, nx, ny, k, smoke).unwrap();
    let part = smoke_part(&after, shape, smoke).to_vec();
    Given {
        part,
        report,
        clipped,
    }
}

fn read(second: Stepped) -> Given {
    Given {
        part: second.numbers,
        report: second.report,
        clipped: second.clipped.iter().sum(),
    }
}

fn masses(part: &[u32]) -> Vec<u64> {
    part.chunks_exact(10).map(element_mass).collect()
}

/// How often the rule matters.
#[derive(Debug, Default)]
struct Met {
    steps: u64,
    /// Steps with a cut face.
    cut: u64,
    /// Of these, steps with another field, or another figure, than before.
    other_field: u64,
    other_figure: u64,
    /// Of the cut ones, those in which every face holds back less than 6.
    small: u64,
    /// Of the cut ones, those in which a negative d isn't six times a number,
    /// so that floor would give another q.
    floor: u64,
    /// Of the cut ones, those on a grid one element wide or high.
    narrow: u64,
}

impl Met {
    fn count(&mut self, shape: Shape, field: &[u32], wind: &[i16], smoke: usize) {
        let reading = Reading { shape, wind };
        let part = smoke_part(field, shape, smoke);
        let second = reading.step(part, true);
        let held = second.held.clone();
        let was_cut = second.has_cut_face();
        let levelled = given(Held::Levelled, shape, field, wind, smoke);
        let by_its_face = given(Held::ByItsFace, shape, field, wind, smoke);
        assert_eq!(levelled, read(reading.step(part, false)));
        assert_eq!(by_its_face, read(second));
        // The rule moves smoke within elements only.
        assert_eq!(levelled.report, by_its_face.report);
        assert_eq!(masses(&levelled.part), masses(&by_its_face.part));

        self.steps += 1;
        if !was_cut {
            // "A step in which no face is cut gives the result it gave before."
            assert_eq!(levelled, by_its_face);
            return;
        }
        self.cut += 1;
        self.other_field += u64::from(levelled.part != by_its_face.part);
        self.other_figure += u64::from(levelled.clipped != by_its_face.clipped);
        let small = held.iter().all(|d| d.abs() < 6);
        assert!(!small || levelled == by_its_face);
        self.small += u64::from(small);
        self.floor += u64::from(held.iter().any(|&d| d < 0 && d % 6 != 0));
        self.narrow += u64::from(shape.nx == 1 || shape.ny == 1);
    }

    /// Tells it (shown by `cargo test -- --nocapture`), and that each kind of
    /// step was met often enough.
    fn tell(&self, what: &str) {
        println!("{what}: {self:?}");
        assert!(self.steps - self.cut > 300 && self.cut > 500);
        assert!(self.other_field > 500 && self.other_figure > 300);
        assert!(self.small > 10 && self.floor > 300 && self.narrow > 300);
    }
}

#[test]
fn steps_in_lists() {
    let mut met = Met::default();
    for (seed, shape) in seeded(80) {
        let Shape { nx, ny, k } = shape;
        let mut state = State::new(nx, ny, k);
        for call in calls(7000 + seed, (nx, ny, k)) {
            match call {
                Call::Step(smoke) if smoke < k => {
                    met.count(shape, &state.field, &state.wind, smoke);
                }
                _ => {}
            }
            state.run(&call);
        }
    }
    met.tell("lists");
}

#[test]
fn steps_of_files() {
    let mut met = Met::default();
    for (seed, shape) in seeded(1600) {
        let (field, wind) = buffers(8000 + seed, shape);
        for smoke in 0..shape.k {
            met.count(shape, &field, &wind, smoke);
        }
    }
    met.tell("files");
}

/// Makes a smoke full, with its stored total.
fn fill(part: &mut [u32]) {
    for element in part.chunks_exact_mut(10) {
        for value in &mut element[..9] {
            *value = 20 + *value % 20;
        }
    }
    let sum: u64 = masses(part).iter().sum();
    *part.last_mut().unwrap() = sum as u32;
}

/// Full fields in weak winds: face amounts stay far below what the elements
/// hold, so no face is ever cut and the rule never shows.
#[test]
fn steps_without_a_cut_face() {
    let mut met = Met::default();
    for (seed, shape) in seeded(400) {
        let (mut field, mut wind) = buffers(9000 + seed, shape);
        for part in field.chunks_mut(shape.smoke_len()) {
            fill(part);
        }
        for c in &mut wind {
            *c /= 16;
        }
        for smoke in 0..shape.k {
            met.count(shape, &field, &wind, smoke);
        }
    }
    assert!(met.steps > 800, "{met:?}");
    assert_eq!(met.cut, 0);
}
