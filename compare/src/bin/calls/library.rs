//! The proved library's calls, as include/plume.h declares them: a slice is a pointer and then a count.

use crate::call::{Calls, Face, Grid, Place};

#[rustfmt::skip]
extern "C" {
    fn plume_fresh(field: *mut u32, field_count: usize, wind: *mut i16, wind_count: usize, nx: usize, ny: usize, smokes: usize) -> u8;
    fn plume_wind(wind: *mut i16, wind_count: usize, nx: usize, ny: usize, smokes: usize, way: u8, i: usize, j: usize, c: i16) -> u8;
    fn plume_import(wind: *mut i16, wind_count: usize, records: *const u8, records_count: usize, nx: usize, ny: usize, smokes: usize) -> u8;
    fn plume_load(field: *mut u32, field_count: usize, numbers: *const u32, numbers_count: usize, nx: usize, ny: usize, smokes: usize, smoke: usize) -> u8;
    fn plume_emission(field: *mut u32, field_count: usize, nx: usize, ny: usize, smokes: usize, smoke: usize, i: usize, j: usize, q: u64) -> i64;
    fn plume_withdrawal(field: *mut u32, field_count: usize, nx: usize, ny: usize, smokes: usize, smoke: usize, i: usize, j: usize, q: u64) -> i64;
    fn plume_step(field: *mut u32, field_count: usize, wind: *const i16, wind_count: usize, report: *mut i32, report_count: usize, work: *mut i64, work_count: usize, nx: usize, ny: usize, smokes: usize, smoke: usize) -> i64;
    fn plume_mass(field: *const u32, field_count: usize, nx: usize, ny: usize, smokes: usize, smoke: usize, i: usize, j: usize) -> i64;
    fn plume_total(field: *const u32, field_count: usize, nx: usize, ny: usize, smokes: usize, smoke: usize) -> i64;
    fn plume_map(page: *mut u8, page_count: usize, field: *const u32, field_count: usize, nx: usize, ny: usize, smokes: usize, smoke: usize) -> i64;
    fn plume_read(field: *mut u32, field_count: usize, wind: *mut i16, wind_count: usize, file: *const u8, file_count: usize) -> i64;
    fn plume_write(file: *mut u8, file_count: usize, field: *const u32, field_count: usize, wind: *const i16, wind_count: usize, nx: usize, ny: usize, smokes: usize) -> i64;
}

/// The library, called through its C interface.
pub struct Library;

// Each call is lent slices that live as long as it runs, so what the foreign functions ask of their pointers holds.
#[rustfmt::skip]
impl Calls for Library {
    fn fresh(&self, field: &mut [u32], wind: &mut [i16], g: Grid) -> u8 {
        unsafe { plume_fresh(field.as_mut_ptr(), field.len(), wind.as_mut_ptr(), wind.len(), g.nx, g.ny, g.smokes) }
    }

    fn wind(&self, wind: &mut [i16], g: Grid, face: Face, c: i16) -> u8 {
        unsafe { plume_wind(wind.as_mut_ptr(), wind.len(), g.nx, g.ny, g.smokes, face.way, face.i, face.j, c) }
    }

    fn import(&self, wind: &mut [i16], records: &[u8], g: Grid) -> u8 {
        unsafe { plume_import(wind.as_mut_ptr(), wind.len(), records.as_ptr(), records.len(), g.nx, g.ny, g.smokes) }
    }

    fn load(&self, field: &mut [u32], numbers: &[u32], g: Grid, smoke: usize) -> u8 {
        unsafe { plume_load(field.as_mut_ptr(), field.len(), numbers.as_ptr(), numbers.len(), g.nx, g.ny, g.smokes, smoke) }
    }

    fn emission(&self, field: &mut [u32], g: Grid, at: Place, q: u64) -> i64 {
        unsafe { plume_emission(field.as_mut_ptr(), field.len(), g.nx, g.ny, g.smokes, at.smoke, at.i, at.j, q) }
    }

    fn withdrawal(&self, field: &mut [u32], g: Grid, at: Place, q: u64) -> i64 {
        unsafe { plume_withdrawal(field.as_mut_ptr(), field.len(), g.nx, g.ny, g.smokes, at.smoke, at.i, at.j, q) }
    }

    fn step(&self, field: &mut [u32], wind: &[i16], report: &mut [i32], work: &mut [i64], g: Grid, smoke: usize) -> i64 {
        unsafe {
            plume_step(field.as_mut_ptr(), field.len(), wind.as_ptr(), wind.len(), report.as_mut_ptr(), report.len(),
                work.as_mut_ptr(), work.len(), g.nx, g.ny, g.smokes, smoke)
        }
    }

    fn mass(&self, field: &[u32], g: Grid, at: Place) -> i64 {
        unsafe { plume_mass(field.as_ptr(), field.len(), g.nx, g.ny, g.smokes, at.smoke, at.i, at.j) }
    }

    fn total(&self, field: &[u32], g: Grid, smoke: usize) -> i64 {
        unsafe { plume_total(field.as_ptr(), field.len(), g.nx, g.ny, g.smokes, smoke) }
    }

    fn map(&self, page: &mut [u8], field: &[u32], g: Grid, smoke: usize) -> i64 {
        unsafe { plume_map(page.as_mut_ptr(), page.len(), field.as_ptr(), field.len(), g.nx, g.ny, g.smokes, smoke) }
    }

    fn read(&self, field: &mut [u32], wind: &mut [i16], file: &[u8]) -> i64 {
        unsafe { plume_read(field.as_mut_ptr(), field.len(), wind.as_mut_ptr(), wind.len(), file.as_ptr(), file.len()) }
    }

    fn write(&self, file: &mut [u8], field: &[u32], wind: &[i16], g: Grid) -> i64 {
        unsafe { plume_write(file.as_mut_ptr(), file.len(), field.as_ptr(), field.len(), wind.as_ptr(), wind.len(), g.nx, g.ny, g.smokes) }
    }
}
