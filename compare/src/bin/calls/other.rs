//! The reference program's calls, answering as the C interface does.

use crate::call::{Calls, Face, Grid, Place};
use reference::Way;

/// The reference, called as a library.
pub struct Other;

fn accepted(answer: Result<(), u8>) -> u8 {
    answer.err().unwrap_or(0)
}

fn number(answer: Result<u64, u8>) -> i64 {
    match answer {
        Ok(number) => i64::try_from(number).expect("every answer fits"),
        Err(refusal) => -i64::from(refusal),
    }
}

impl Calls for Other {
    fn fresh(&self, field: &mut [u32], wind: &mut [i16], g: Grid) -> u8 {
        accepted(reference::fresh(field, wind, g.nx, g.ny, g.smokes))
    }

    fn wind(&self, wind: &mut [i16], g: Grid, face: Face, c: i16) -> u8 {
        // The reference knows no third way; a column that no grid has meets the same checks and the same 8.
        let (way, i) = match face.way {
            0 => (Way::East, face.i),
            1 => (Way::North, face.i),
            _ => (Way::East, usize::MAX),
        };
        accepted(reference::wind(
            wind, g.nx, g.ny, g.smokes, way, i, face.j, c,
        ))
    }

    fn import(&self, wind: &mut [i16], records: &[u8], g: Grid) -> u8 {
        accepted(reference::import(wind, records, g.nx, g.ny, g.smokes))
    }

    fn load(&self, field: &mut [u32], numbers: &[u32], g: Grid, smoke: usize) -> u8 {
        accepted(reference::load(field, numbers, g.nx, g.ny, g.smokes, smoke))
    }

    fn emission(&self, field: &mut [u32], g: Grid, at: Place, q: u64) -> i64 {
        number(reference::emission(
            field, g.nx, g.ny, g.smokes, at.smoke, at.i, at.j, q,
        ))
    }

    fn withdrawal(&self, field: &mut [u32], g: Grid, at: Place, q: u64) -> i64 {
        number(reference::withdrawal(
            field, g.nx, g.ny, g.smokes, at.smoke, at.i, at.j, q,
        ))
    }

    fn step(
        &self,
        field: &mut [u32],
        wind: &[i16],
        report: &mut [i32],
        work: &mut [i64],
        g: Grid,
        smoke: usize,
    ) -> i64 {
        number(reference::step(
            field, wind, report, work, g.nx, g.ny, g.smokes, smoke,
        ))
    }

    fn mass(&self, field: &[u32], g: Grid, at: Place) -> i64 {
        number(reference::mass(
            field, g.nx, g.ny, g.smokes, at.smoke, at.i, at.j,
        ))
    }

    fn total(&self, field: &[u32], g: Grid, smoke: usize) -> i64 {
        number(reference::total(field, g.nx, g.ny, g.smokes, smoke))
    }

    fn map(&self, page: &mut [u8], field: &[u32], g: Grid, smoke: usize) -> i64 {
        number(reference::map(page, field, g.nx, g.ny, g.smokes, smoke))
    }

    fn read(&self, field: &mut [u32], wind: &mut [i16], file: &[u8]) -> i64 {
        let shape = reference::read_file(file, field, wind);
        number(shape.map(|s| (s.nx + 256 * s.ny + 65_536 * s.k) as u64))
    }

    fn write(&self, file: &mut [u8], field: &[u32], wind: &[i16], g: Grid) -> i64 {
        let length = reference::write_file(field, wind, file, g.nx, g.ny, g.smokes);
        number(length.map(|n| n as u64))
    }
}
