//! A call with its arguments, the twelve calls as one trait, and what an answer says.

use crate::buffers::Buffers;
use reference::Shape;

/// A shape as the caller offers it, admitted or not.
#[derive(Clone, Copy, Debug, PartialEq)]
pub struct Grid {
    pub nx: usize,
    pub ny: usize,
    pub smokes: usize,
}

impl Grid {
    /// As the reference writes an admitted shape.
    pub fn shape(self) -> Shape {
        Shape {
            nx: self.nx,
            ny: self.ny,
            k: self.smokes,
        }
    }
}

/// An element of a smoke as the caller names it.
#[derive(Clone, Copy, Debug)]
pub struct Place {
    pub smoke: usize,
    pub i: usize,
    pub j: usize,
}

/// A face as the caller names it: 0 is east, 1 is north, any other way is no face.
#[derive(Clone, Copy, Debug)]
pub struct Face {
    pub way: u8,
    pub i: usize,
    pub j: usize,
}

#[derive(Clone, Copy, Debug)]
pub enum Operation {
    Fresh,
    Wind(Face, i16),
    Import,
    Load(usize),
    Emission(Place, u64),
    Withdrawal(Place, u64),
    Step(usize),
    Mass(Place),
    Total(usize),
    Map(usize),
    Read,
    Write,
}

/// What a call is given beside its buffers.
#[derive(Clone, Copy, Debug)]
pub struct Call {
    pub grid: Grid,
    pub operation: Operation,
}

/// The twelve calls as C sees them. A u8 is 0 or the refusal's number; an i64 is the number answered or the refusal's negated.
pub trait Calls {
    fn fresh(&self, field: &mut [u32], wind: &mut [i16], g: Grid) -> u8;
    fn wind(&self, wind: &mut [i16], g: Grid, face: Face, c: i16) -> u8;
    fn import(&self, wind: &mut [i16], records: &[u8], g: Grid) -> u8;
    fn load(&self, field: &mut [u32], numbers: &[u32], g: Grid, smoke: usize) -> u8;
    fn emission(&self, field: &mut [u32], g: Grid, at: Place, q: u64) -> i64;
    fn withdrawal(&self, field: &mut [u32], g: Grid, at: Place, q: u64) -> i64;
    fn step(
        &self,
        field: &mut [u32],
        wind: &[i16],
        report: &mut [i32],
        work: &mut [i64],
        g: Grid,
        smoke: usize,
    ) -> i64;
    fn mass(&self, field: &[u32], g: Grid, at: Place) -> i64;
    fn total(&self, field: &[u32], g: Grid, smoke: usize) -> i64;
    fn map(&self, page: &mut [u8], field: &[u32], g: Grid, smoke: usize) -> i64;
    fn read(&self, field: &mut [u32], wind: &mut [i16], file: &[u8]) -> i64;
    fn write(&self, file: &mut [u8], field: &[u32], wind: &[i16], g: Grid) -> i64;
}

/// Makes a call on one side, on the lent parts of its buffers.
pub fn make(side: &impl Calls, call: &Call, b: &mut Buffers) -> i64 {
    let g = call.grid;
    let field = b.field.lent_mut();
    let wind = b.wind.lent_mut();
    match call.operation {
        Operation::Fresh => side.fresh(field, wind, g).into(),
        Operation::Wind(face, c) => side.wind(wind, g, face, c).into(),
        Operation::Import => side.import(wind, b.records.lent(), g).into(),
        Operation::Load(smoke) => side.load(field, b.numbers.lent(), g, smoke).into(),
        Operation::Emission(at, q) => side.emission(field, g, at, q),
        Operation::Withdrawal(at, q) => side.withdrawal(field, g, at, q),
        Operation::Step(smoke) => {
            let (report, work) = (b.report.lent_mut(), b.work.lent_mut());
            side.step(field, wind, report, work, g, smoke)
        }
        Operation::Mass(at) => side.mass(field, g, at),
        Operation::Total(smoke) => side.total(field, g, smoke),
        Operation::Map(smoke) => side.map(b.page.lent_mut(), field, g, smoke),
        Operation::Read => side.read(field, wind, b.file.lent()),
        Operation::Write => side.write(b.out.lent_mut(), field, wind, g),
    }
}

/// The names of the calls, in the order of `Call::kind`.
pub const KINDS: [&str; 12] = [
    "fresh",
    "wind",
    "import",
    "load",
    "emission",
    "withdrawal",
    "step",
    "mass",
    "total",
    "map",
    "read",
    "write",
];

impl Call {
    pub fn kind(&self) -> usize {
        match self.operation {
            Operation::Fresh => 0,
            Operation::Wind(..) => 1,
            Operation::Import => 2,
            Operation::Load(_) => 3,
            Operation::Emission(..) => 4,
            Operation::Withdrawal(..) => 5,
            Operation::Step(_) => 6,
            Operation::Mass(_) => 7,
            Operation::Total(_) => 8,
            Operation::Map(_) => 9,
            Operation::Read => 10,
            Operation::Write => 11,
        }
    }

    /// The refusal's number in an answer, 0 where the call was accepted.
    pub fn refusal(&self, answer: i64) -> i64 {
        let is_number = self.kind() >= 4;
        match (is_number, answer < 0) {
            (true, true) => answer.wrapping_neg(),
            (true, false) => 0,
            (false, _) => answer,
        }
    }
}
