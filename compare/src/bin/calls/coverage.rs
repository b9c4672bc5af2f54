//! What the accepted steps met: smoke over a face, a clipped mass, stage values below zero, cut amounts, and these together on one face; and that the
//! rule for held smoke (document 02, 2026-05) changes nothing where no face is cut. And what the accepted imports and maps did.

use crate::buffers::Buffers;
use crate::call::{Call, Operation};
use reference::calls::signed_values;
use reference::checks::{element_mass, smoke_elements};
use reference::closing::{floor_div, Nodes};
use reference::flux::{corrected, donor, face_amounts, face_elements};
use reference::held::Held;
use reference::rng::Rng;
use reference::shape::{NODES, PAGE_COLUMNS, PER_ELEMENT};
use reference::step::step_with;
use reference::tendency::{tendencies, Winds};
use reference::Shape;

/// Steps on larger grids are not looked into: they would take most of the time.
const LOOKED_INTO: usize = 40;

/// From how many elements on a grid counts as large.
const LARGE: usize = 1000;

/// The most that a smoke's total may be.
const LIMIT: i64 = 100_000_000;

#[derive(Default)]
pub struct Coverage {
    steps: u64,
    moved: u64,
    changed: u64,
    clipped: u64,
    above_limit: u64,
    large: u64,
    looked_into: u64,
    below_zero: u64,
    cut: u64,
    held: u64,
    together: u64,
    imports: u64,
    new_winds: u64,
    surplus: u64,
    large_imports: u64,
    maps: u64,
    whole_blocks: u64,
    blank_columns: u64,
    large_maps: u64,
}

impl Coverage {
    /// Looks at an accepted call. The error is what both programs did against document 02.
    pub fn accepted(
        &mut self,
        rng: &mut Rng,
        call: &Call,
        answer: i64,
        before: &Buffers,
        after: &Buffers,
    ) -> Result<(), String> {
        let shape = call.grid.shape();
        match call.operation {
            Operation::Step(smoke) => {
                self.clipped += u64::from(answer > 0);
                self.above_limit += u64::from(answer > LIMIT);
                self.step(rng, shape, smoke, answer, before, after)?;
            }
            Operation::Import => self.import(shape, before, after),
            Operation::Map(_) => self.map(shape),
            _ => {}
        }
        Ok(())
    }

    fn import(&mut self, shape: Shape, before: &Buffers, after: &Buffers) {
        self.imports += 1;
        self.new_winds += u64::from(before.wind.lent() != after.wind.lent());
        self.surplus += u64::from(after.wind.lent().len() > shape.wind_len());
        self.large_imports += u64::from(shape.elements() >= LARGE);
    }

    fn map(&mut self, shape: Shape) {
        let whole = shape.nx % PAGE_COLUMNS == 0;
        self.maps += 1;
        self.whole_blocks += u64::from(whole);
        self.blank_columns += u64::from(!whole && shape.nx > PAGE_COLUMNS);
        self.large_maps += u64::from(shape.elements() >= LARGE);
    }

    /// Looks at a step, once in four into its stages.
    fn step(
        &mut self,
        rng: &mut Rng,
        shape: Shape,
        smoke: usize,
        answer: i64,
        before: &Buffers,
        after: &Buffers,
    ) -> Result<(), String> {
        let report = &after.report.lent()[..shape.wind_len()];
        self.steps += 1;
        self.moved += u64::from(report.iter().any(|&g| g != 0));
        self.changed += u64::from(before.field.lent() != after.field.lent());
        self.large += u64::from(shape.elements() >= LARGE);
        if shape.elements() > LOOKED_INTO || !rng.once_in(4) {
            return Ok(());
        }
        let part = smoke_elements(before.field.lent(), shape, smoke);
        let faces = before.wind.lent();
        let met = Met::of(Winds { shape, faces }, part);
        self.looked_into += 1;
        self.below_zero += u64::from(met.below_zero);
        self.cut += u64::from(met.cut);
        self.together += u64::from(met.together);
        let other = other_without_held(shape, smoke, answer, before, after);
        self.held += u64::from(other);
        match other && !met.cut {
            true => Err("no face is cut, and the rule for held smoke changes the step".into()),
            false => Ok(()),
        }
    }

    pub fn print(&self) {
        println!(
            "{} steps accepted, {} with smoke over a face, {} that changed the field, {} on {LARGE} elements or more",
            self.steps, self.moved, self.changed, self.large
        );
        println!(
            "{} with a clipped mass above 0, {} above {LIMIT}",
            self.clipped, self.above_limit
        );
        println!(
            "of {} looked into: {} with a stage value below zero, {} with a cut face, {} with both and an old remainder on one face",
            self.looked_into, self.below_zero, self.cut, self.together
        );
        println!(
            "of those with a cut face {} are other without the rule for held smoke, of the {} without one none",
            self.held,
            self.looked_into - self.cut
        );
        println!(
            "{} imports accepted, {} that changed the wind, {} with surplus behind it, {} on {LARGE} elements or more",
            self.imports, self.new_winds, self.surplus, self.large_imports
        );
        println!(
            "{} maps accepted, {} of whole blocks, {} of several blocks with columns missing in the last, {} on {LARGE} elements or more",
            self.maps, self.whole_blocks, self.blank_columns, self.large_maps
        );
    }
}

/// Whether the step without the rule for held smoke gives another answer, field or report.
fn other_without_held(
    shape: Shape,
    smoke: usize,
    answer: i64,
    before: &Buffers,
    after: &Buffers,
) -> bool {
    let mut field = before.field.lent().to_vec();
    let mut report = before.report.lent().to_vec();
    let mut work = before.work.lent().to_vec();
    let wind = before.wind.lent();
    let Shape { nx, ny, k } = shape;
    let given = step_with(
        Held::Levelled,
        &mut field,
        wind,
        &mut report,
        &mut work,
        nx,
        ny,
        k,
        smoke,
    );
    given.map(|clipped| clipped as i64) != Ok(answer)
        || field != after.field.lent()
        || report != after.report.lent()
}

struct Met {
    below_zero: bool,
    cut: bool,
    /// A cut face whose donor has a remainder, with an upwind value below zero.
    together: bool,
}

impl Met {
    fn of(winds: Winds, part: &[u32]) -> Met {
        let stages = stages(&winds, part);
        let masses: Vec<i128> = part
            .chunks_exact(PER_ELEMENT)
            .map(|e| i128::from(element_mass(e)))
            .collect();
        let amounts = face_amounts(&winds, [&stages[0], &stages[1], &stages[2]]);
        let limited = corrected(winds.shape, &amounts, &masses);
        let is_cut = |face: usize| amounts[face] != limited[face];
        let together = |face: usize| {
            let giver = donor(winds.shape, face, amounts[face]);
            let old = giver.map_or(false, |e| part[PER_ELEMENT * e + NODES] > 0);
            is_cut(face) && old && upwind_below_zero(&winds, &stages, face)
        };
        let faces = 0..amounts.len();
        Met {
            below_zero: stages.iter().flatten().flatten().any(|&value| value < 0),
            cut: faces.clone().any(is_cut),
            together: faces.clone().any(together),
        }
    }
}

/// φ0, φ1 and φ2.
fn stages(winds: &Winds, part: &[u32]) -> [Vec<Nodes>; 3] {
    let first: Vec<Nodes> = part.chunks_exact(PER_ELEMENT).map(signed_values).collect();
    let t0 = tendencies(winds, &first);
    let plus = |change: &dyn Fn(usize, usize) -> i128| -> Vec<Nodes> {
        let element = |e: usize| std::array::from_fn(|n| first[e][n] + change(e, n));
        (0..first.len()).map(element).collect()
    };
    let second = plus(&|e, n| t0[e][n]);
    let t1 = tendencies(winds, &second);
    let third = plus(&|e, n| floor_div(t0[e][n] + t1[e][n], 4));
    [first, second, third]
}

fn upwind_below_zero(winds: &Winds, stages: &[Vec<Nodes>; 3], face: usize) -> bool {
    let n = winds.shape.elements();
    let (own, _) = face_elements(winds.shape, face);
    let (i, j) = (own % winds.shape.nx, own / winds.shape.nx);
    let upwind = |stage: &Vec<Nodes>, at: usize| match face < n {
        true => winds.upwind_east(stage, i, j, at),
        false => winds.upwind_north(stage, i, j, at),
    };
    stages
        .iter()
        .any(|stage| (0..3).any(|at| upwind(stage, at) < 0))
}
