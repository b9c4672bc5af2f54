//! A list of calls on one field: its buffers at the start, the next call, and what an answer means for the rest.

use crate::arguments::{grid_of, operation, surplus};
use crate::buffers::{Buffer, Buffers};
use crate::call::{Call, Operation};
use crate::field::mend;
use crate::wild::spoil;
use compare::{content, files};
use reference::rng::Rng;
use reference::{Mark, Shape};

/// What an accepted call must leave beside what the reference says.
#[derive(Clone, Copy, PartialEq)]
pub enum Expected {
    Nothing,
    /// "a field written to a file is the field read from it"
    SameField,
    /// "only files with the new mark come back byte for byte" (document 02, 2026-06)
    SameFile,
    /// ""PLUM" is still read, its totals worked out, and such a file is written again as "PLU2"" (document 02, 2026-06)
    NewMark,
}

/// Once in so many calls the host mends its field first: an accepted call may leave a smoke that others refuse with 6.
const MENDED: u64 = 4;

pub struct List {
    /// The shape of what field and wind hold now.
    shape: Shape,
    pub left: usize,
    /// Whether the buffers hold any bits still: then most lists begin with a fresh field.
    any_bits: bool,
    /// Set by an accepted file call, so that the next call goes the other way.
    next: Expected,
    /// The length that the last accepted file writing answered.
    written: usize,
    /// Field and wind before faults were laid in them.
    sound: Option<(Vec<u32>, Vec<i16>)>,
}

impl List {
    /// A new list: a shape, and buffers with or without surplus, of zeros, any bits, or a sound field.
    pub fn begin(rng: &mut Rng, b: &mut Buffers) -> List {
        let shape = content::shape(rng, 16);
        let start = rng.below(8);
        let mut field = match start {
            0 => vec![0; shape.field_len()],
            1 => (0..shape.field_len()).map(|_| rng.draw() as u32).collect(),
            _ => content::field(rng, shape),
        };
        let mut wind = match start {
            1 => (0..shape.wind_len()).map(|_| rng.draw() as i16).collect(),
            _ => content::winds(rng, shape),
        };
        field.extend((0..surplus(rng)).map(|_| rng.draw() as u32));
        wind.extend((0..surplus(rng)).map(|_| rng.draw() as i16));
        b.field = Buffer::new(&field, 0xDEAD_BEEF);
        b.wind = Buffer::new(&wind, -21_555);
        b.report = Buffer::new(&vec![-5; shape.wind_len() + surplus(rng)], i32::MIN);
        b.work = Buffer::new(&vec![9; shape.work_len() + surplus(rng)], i64::MIN);
        b.out = out(rng, shape);
        let left = match shape.elements() {
            0..=100 => 5 + rng.index(60),
            _ => 4 + rng.index(12),
        };
        List {
            shape,
            left,
            any_bits: start == 1,
            next: Expected::Nothing,
            written: 0,
            sound: None,
        }
    }

    /// The next call; numbers, records, file and faults that belong to it are laid in the buffers.
    pub fn next(&mut self, rng: &mut Rng, b: &mut Buffers) -> (Call, Expected) {
        self.left -= 1;
        self.sound = None;
        let expected = std::mem::replace(&mut self.next, Expected::Nothing);
        let shape = match expected {
            Expected::Nothing => self.near_shape(rng),
            _ => self.shape,
        };
        let any_bits = std::mem::replace(&mut self.any_bits, false);
        if expected == Expected::Nothing && !any_bits && rng.once_in(MENDED) {
            mend(rng, b, self.shape);
        }
        let operation = match expected {
            Expected::Nothing if any_bits && !rng.once_in(8) => Operation::Fresh,
            Expected::Nothing => operation(rng, b, shape),
            Expected::SameField => {
                b.file = Buffer::new(&b.out.space()[..self.written], 0xA5);
                Operation::Read
            }
            Expected::SameFile | Expected::NewMark => {
                b.out = out(rng, shape);
                Operation::Write
            }
        };
        lend(rng, b, shape);
        let grid = grid_of(shape);
        let mut call = Call { grid, operation };
        // a file has many parts that may be wrong
        let once_in = match operation {
            Operation::Read => 2,
            _ => 4,
        };
        if expected == Expected::Nothing && rng.once_in(once_in) {
            self.sound = Some((b.field.space().to_vec(), b.wind.space().to_vec()));
            for _ in 0..rng.pick(&[1, 1, 2, 2, 3]) {
                spoil(rng, &mut call, b, shape);
            }
        }
        (call, expected)
    }

    /// The list's shape, or once in sixteen another one over the same numbers.
    fn near_shape(&self, rng: &mut Rng) -> Shape {
        let Shape { nx, ny, k } = self.shape;
        if !rng.once_in(16) {
            return self.shape;
        }
        match rng.below(4) {
            0 => Shape { nx: ny, ny: nx, k },
            1 => Shape { nx, ny, k: 1 },
            2 => Shape {
                nx: 1 + rng.index(nx),
                ny,
                k,
            },
            _ => Shape {
                nx,
                ny: (ny + 1).min(64),
                k,
            },
        }
    }

    /// Takes back laid faults after most refusals; follows an accepted file call with its opposite.
    pub fn after(&mut self, rng: &mut Rng, call: &Call, answer: i64, b: &mut Buffers) {
        if call.refusal(answer) != 0 {
            if let (Some((field, wind)), false) = (self.sound.take(), rng.once_in(8)) {
                b.field.space_mut().copy_from_slice(&field);
                b.wind.space_mut().copy_from_slice(&wind);
            }
            return;
        }
        let number = answer as usize;
        match call.operation {
            Operation::Read => {
                self.shape = Shape {
                    nx: number % 256,
                    ny: number / 256 % 256,
                    k: number / 65_536,
                };
                let again = match b.file.lent().ends_with(Mark::Plum.bytes()) {
                    true => Expected::NewMark,
                    false => Expected::SameFile,
                };
                self.next = rng.pick(&[Expected::Nothing, again]);
            }
            Operation::Write if rng.once_in(2) => {
                self.shape = call.grid.shape();
                self.written = number;
                self.next = Expected::SameField;
            }
            _ => {}
        }
    }
}

/// Room for a file, of any content.
fn out(rng: &mut Rng, shape: Shape) -> Buffer<u8> {
    let count = shape.file_len(Mark::Plu2) + surplus(rng);
    Buffer::new(&files::bytes(rng, count), 0x5A)
}

/// Lends everything there is, or once in four exactly what the shape needs.
fn lend(rng: &mut Rng, b: &mut Buffers, shape: Shape) {
    let exactly = rng.once_in(4);
    let count = |need: usize| if exactly { need } else { usize::MAX };
    b.field.lend(count(shape.field_len()));
    b.wind.lend(count(shape.wind_len()));
    b.report.lend(count(shape.wind_len()));
    b.work.lend(count(shape.work_len()));
    b.numbers.lend(count(shape.load_len()));
    b.out.lend(count(shape.file_len(Mark::Plu2)));
    b.page.lend(count(shape.page_len()));
    // the length of these two is part of what they say
    b.records.lend(usize::MAX);
    b.file.lend(usize::MAX);
}
