//! Any 64 bits as an f64 through the library's wind import, compared with the reference's exact conversion. Whole numbers alone:
//! nothing here is a floating-point number, so nothing here rounds. Usage: doubles [COUNT [SEED]]

use reference::import_numbers::exact;
use reference::rng::Rng;
use reference::{face_wind, FaceWind};
use std::process::ExitCode;
use std::time::{Duration, Instant};

#[rustfmt::skip]
extern "C" {
    fn plume_import(wind: *mut i16, wind_count: usize, records: *const u8, records_count: usize, nx: usize, ny: usize, smokes: usize) -> u8;
}

const SIGN: u64 = 1 << 63;
const FRACTION_BITS: u32 = 52;
const EXPONENTS: u64 = 2048;

/// What stands in the wind buffer before a call: no face may have it.
const UNTOUCHED: i16 = 31_354;

/// An import's answer, and the wind buffer after it: the two faces of one element and two numbers of surplus.
type Outcome = (u8, [i16; 4]);

/// Half of all are any 64 bits; the others have an exponent near those of winds, or lie at or beside a half.
fn pattern(rng: &mut Rng) -> u64 {
    match rng.below(4) {
        0 | 1 => rng.draw(),
        2 => near_winds(rng),
        _ => near_half(rng),
    }
}

/// Exponents 1005 to 1035. C begins to show at 1010, a half of 1/4096, and 1021 has the strongest wind.
fn near_winds(rng: &mut Rng) -> u64 {
    let exponent = 1005 + rng.below(31);
    let others = rng.draw() & !((EXPONENTS - 1) << FRACTION_BITS);
    others | exponent << FRACTION_BITS
}

/// (2k + 1) / 8192 with k from -1100 to 1100, or the number just below or just above.
fn near_half(rng: &mut Rng) -> u64 {
    let odd = 2 * (rng.below(2201) as i64 - 1100) + 1;
    let size = exact(odd.unsigned_abs(), -13);
    let beside = size - 1 + rng.below(3);
    match odd < 0 {
        true => beside | SIGN,
        false => beside,
    }
}

/// Whether 4096 times the number is a whole number and a half: then 8192 times it is odd.
fn is_half(bits: u64) -> bool {
    let exponent = (bits >> FRACTION_BITS) % EXPONENTS;
    if exponent == 0 || exponent == EXPONENTS - 1 {
        return false;
    }
    let significand = (1 << FRACTION_BITS) + bits % (1 << FRACTION_BITS);
    // 2^13 · significand · 2^(exponent − 1075): all its factors 2 must go.
    13 + u64::from(significand.trailing_zeros()) + exponent == 1075
}

/// The C that a face may have.
fn wind_of(number: FaceWind) -> Option<i16> {
    match number {
        FaceWind::Whole(c) if (-1024..=1024).contains(&c) => Some(c as i16),
        _ => None,
    }
}

/// What request 2026-01 asks of one record with these two numbers: 12, then 5, then both winds.
fn expected(east: FaceWind, north: FaceWind) -> Outcome {
    let refused = |refusal| (refusal, [UNTOUCHED; 4]);
    if [east, north].contains(&FaceWind::NotFinite) {
        return refused(12);
    }
    match (wind_of(east), wind_of(north)) {
        (Some(east), Some(north)) => (0, [east, north, UNTOUCHED, UNTOUCHED]),
        _ => refused(5),
    }
}

/// The library's import of one record on a grid of one element.
fn imported(record: &[u8]) -> Outcome {
    let mut wind = [UNTOUCHED; 4];
    let (to, from) = (wind.as_mut_ptr(), record.as_ptr());
    // Both slices live as long as the call runs.
    let answer = unsafe { plume_import(to, wind.len(), from, record.len(), 1, 1, 1) };
    (answer, wind)
}

fn compared(record: &[u8], right: Outcome) -> Result<(), String> {
    let got = imported(record);
    match got == right {
        true => Ok(()),
        false => Err(format!("library {got:?}, reference {right:?}")),
    }
}

/// A number, with what the reference makes of it.
#[derive(Clone, Copy)]
struct Number {
    bits: u64,
    exactly: FaceWind,
}

impl Number {
    fn new(bits: u64) -> Number {
        let exactly = face_wind(bits);
        Number { bits, exactly }
    }
}

/// A record of kind 1.
fn both(east: Number, north: Number) -> Result<(), String> {
    let mut record = [1; 17];
    record[1..9].copy_from_slice(&east.bits.to_le_bytes());
    record[9..].copy_from_slice(&north.bits.to_le_bytes());
    compared(&record, expected(east.exactly, north.exactly))
        .map_err(|what| format!("kind 1, {:#018x} {:#018x}: {what}", east.bits, north.bits))
}

/// A record of kind 2.
fn east_only(east: Number) -> Result<(), String> {
    let mut record = [2; 9];
    record[1..].copy_from_slice(&east.bits.to_le_bytes());
    compared(&record, expected(east.exactly, FaceWind::Whole(0)))
        .map_err(|what| format!("kind 2, {:#018x}: {what}", east.bits))
}

#[derive(Default)]
struct Counts {
    numbers: u64,
    not_finite: u64,
    out_of_range: u64,
    winds: u64,
    zeros: u64,
    halves: u64,
    halves_in_range: u64,
}

impl Counts {
    fn count(&mut self, number: Number) {
        let wind = wind_of(number.exactly);
        self.numbers += 1;
        match (number.exactly, wind) {
            (FaceWind::NotFinite, _) => self.not_finite += 1,
            (_, None) => self.out_of_range += 1,
            (_, Some(0)) => self.zeros += 1,
            (_, Some(_)) => self.winds += 1,
        }
        let half = is_half(number.bits);
        self.halves += u64::from(half);
        self.halves_in_range += u64::from(half && wind.is_some());
    }

    fn print(&self, time: Duration) {
        println!("not finite             {:>12}", self.not_finite);
        println!("out of range           {:>12}", self.out_of_range);
        println!("in range and not 0     {:>12}", self.winds);
        println!("0                      {:>12}", self.zeros);
        println!("exact halves           {:>12}", self.halves);
        println!("  of these in range    {:>12}", self.halves_in_range);
        let tenths = time.as_millis() / 100;
        let (whole, rest) = (tenths / 10, tenths % 10);
        println!("{} numbers in {whole}.{rest} s", self.numbers);
    }
}

/// Each number goes alone, twice, and together with the one before it, to the east of it or to the north.
fn run(count: u64, seed: u64, counts: &mut Counts) -> Result<(), String> {
    let mut rng = Rng::new(seed);
    let mut before = Number::new(0);
    for _ in 0..count {
        let number = Number::new(pattern(&mut rng));
        counts.count(number);
        east_only(number)?;
        both(number, number)?;
        match rng.once_in(2) {
            true => both(number, before)?,
            false => both(before, number)?,
        }
        before = number;
    }
    Ok(())
}

/// COUNT and SEED, where the words are that.
fn arguments() -> Option<(u64, u64)> {
    let mut words = std::env::args().skip(1);
    let mut number = |otherwise: u64| match words.next() {
        Some(word) => word.parse().ok(),
        None => Some(otherwise),
    };
    Some((number(10_000_000)?, number(1)?))
}

fn main() -> ExitCode {
    let (count, seed) = match arguments() {
        Some(both) => both,
        None => {
            eprintln!("usage: doubles [COUNT [SEED]]");
            return ExitCode::from(2);
        }
    };
    let mut counts = Counts::default();
    let start = Instant::now();
    let ended = run(count, seed, &mut counts);
    counts.print(start.elapsed());
    if let Err(what) = ended {
        println!("DIFFERENCE, seed {seed}, number {}: {what}", counts.numbers);
        return ExitCode::from(1);
    }
    println!("all equal, seed {seed}");
    ExitCode::SUCCESS
}
