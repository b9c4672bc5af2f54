//! The wind import of request 2026-01: "Crews get wind as records, one per
//! element in grid order (j outer)". Nothing is written before the last
//! check.

use crate::checks::{long_enough, wind_in_range, BAD_RECORD, BAD_WIND, NOT_FINITE};
use crate::face_wind::{face_wind, FaceWind};
use crate::shape::Shape;

/// "A record is a kind byte, then little-endian f64 numbers in elements per
/// step." The numbers stay the 64 bits that they are.
#[derive(Clone, Copy, Debug, PartialEq, Eq)]
enum Record {
    /// "Kind 0 is calm and has no number."
    Calm,
    /// "Kind 1 has an east and a north component."
    Both { east: u64, north: u64 },
    /// "Kind 2 has an east component only, and north is zero."
    East(u64),
}

/// The bits of the f64 zero, which becomes C = 0.
const ZERO: u64 = 0;

/// Checks 2 4, then for each record in order 11 12 5, then 11 for what is
/// left. "the old 2, then 4 for the wind buffer, then records in order": too
/// few bytes of records are no short slice but a missing byte. Old winds are
/// not searched, as in a wind call.
pub fn import(wind: &mut [i16], records: &[u8], nx: usize, ny: usize, k: usize) -> Result<(), u8> {
    let shape = Shape::checked(nx, ny, k)?;
    long_enough(wind, shape.wind_len())?;
    let (east, north) = all_winds(records, shape.elements())?;
    // "all east faces (j outer, i inner), then all north faces"; the records
    // stand in the same order, and what lies beyond is surplus.
    let faces = [east, north].concat();
    wind[..shape.wind_len()].copy_from_slice(&faces);
    Ok(())
}

/// The east and the north winds of all elements, from exactly so many
/// records: 11 is also "bytes after the last record".
fn all_winds(records: &[u8], elements: usize) -> Result<(Vec<i16>, Vec<i16>), u8> {
    let (mut east, mut north) = (Vec::new(), Vec::new());
    let mut rest = records;
    for _ in 0..elements {
        let (record, after) = first_record(rest)?;
        let winds = face_winds(record)?;
        east.push(winds.0);
        north.push(winds.1);
        rest = after;
    }
    if !rest.is_empty() {
        return Err(BAD_RECORD);
    }
    Ok((east, north))
}

/// The first record and the bytes after it. Refusal 11: "an unknown kind, a
/// missing byte", be it of a number or the kind byte itself.
fn first_record(bytes: &[u8]) -> Result<(Record, &[u8]), u8> {
    let (&kind, rest) = bytes.split_first().ok_or(BAD_RECORD)?;
    match kind {
        0 => Ok((Record::Calm, rest)),
        1 => {
            let (east, rest) = first_number(rest)?;
            let (north, rest) = first_number(rest)?;
            Ok((Record::Both { east, north }, rest))
        }
        2 => {
            let (east, rest) = first_number(rest)?;
            Ok((Record::East(east), rest))
        }
        _ => Err(BAD_RECORD),
    }
}

fn first_number(bytes: &[u8]) -> Result<(u64, &[u8]), u8> {
    let number = bytes.get(..8).ok_or(BAD_RECORD)?;
    let number = u64::from_le_bytes(number.try_into().expect("eight bytes"));
    Ok((number, &bytes[8..]))
}

/// The east and the north C of a whole record. "12 is a number not finite,
/// looked for once the record is whole; 5 comes last within a record": both
/// numbers meet 12 before either meets 5.
fn face_winds(record: Record) -> Result<(i16, i16), u8> {
    let (east, north) = match record {
        Record::Calm => (ZERO, ZERO),
        Record::Both { east, north } => (east, north),
        Record::East(east) => (east, ZERO),
    };
    let (east, north) = (face_wind(east), face_wind(north));
    if [east, north].contains(&FaceWind::NotFinite) {
        return Err(NOT_FINITE);
    }
    Ok((c_in_range(east)?, c_in_range(north)?))
}

/// Refusal 5 regards C, so only what is beyond ±1024 after rounding.
fn c_in_range(number: FaceWind) -> Result<i16, u8> {
    let c = match number {
        FaceWind::Whole(c) => c,
        _ => return Err(BAD_WIND),
    };
    let c = i16::try_from(c).map_err(|_| BAD_WIND)?;
    wind_in_range(c)?;
    Ok(c)
}
