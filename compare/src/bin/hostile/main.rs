//! Damaged and random files through a program, compared with the reference program's output byte for byte.
//! Usage: hostile PROGRAM lines|pages SAMPLES [COUNT [SEED]]

mod inputs;
mod process;

use inputs::Inputs;
use process::{Program, Ran};
use reference::{map_program, program, Mark};
use std::fs;
use std::path::{Path, PathBuf};
use std::process::ExitCode;
use std::time::{Duration, Instant};

/// Every truncation of these, every flipped bit of those that are short.
const SAMPLES: [&str; 4] = ["case_f", "halves", "two_smokes", "shear_16x8"];
const SHORT: usize = 1000;

/// From how many random files on every answer must be met.
const ENOUGH: u64 = 10_000;

/// How often progress is told.
const PROGRESS: Duration = Duration::from_secs(10);

/// What a program prints: the reference's output, and the ending of a sample's stored one.
#[derive(Clone, Copy)]
struct Prints {
    output: fn(&[u8]) -> String,
    stored: &'static str,
}

fn prints(word: &str) -> Option<Prints> {
    let (output, stored): (fn(&[u8]) -> String, _) = match word {
        "lines" => (program::output, "txt"),
        "pages" => (map_program::output, "pages.txt"),
        _ => return None,
    };
    Some(Prints { output, stored })
}

struct Hostile {
    program: Program,
    prints: Prints,
    inputs: Inputs,
    runs: u64,
    /// Accepted files, and refused ones by number: of those that end in "PLUM", in "PLU2", and of all others.
    met: [[u64; 7]; 3],
    start: Instant,
    /// When progress was last told.
    said: Instant,
}

/// What is wrong with a run, beside a wrong output.
fn fault(ran: &Ran) -> Option<String> {
    if ran.late {
        return Some("it was ended: it took too long".to_string());
    }
    if ran.status.code() != Some(0) {
        return Some(format!("it ended with {}", ran.status));
    }
    if !ran.output.is_empty() && ran.output.last() != Some(&b'\n') {
        return Some("its last line has no end".to_string());
    }
    (ran.errors > 0).then(|| format!("it wrote {} bytes to standard error", ran.errors))
}

/// The place of a printed answer among those that are counted.
fn answer(text: &str) -> usize {
    let number = text.strip_prefix("refused ").map(str::trim_end);
    number.map_or(0, |n| n.parse().expect("the reference prints a number"))
}

/// The place of a file among those that are counted, by its mark.
fn ending(file: &[u8]) -> usize {
    let marks = [Mark::Plum, Mark::Plu2];
    let place = marks.iter().position(|mark| file.ends_with(mark.bytes()));
    place.unwrap_or(marks.len())
}

impl Hostile {
    /// One file through the program.
    fn run(&mut self, file: &[u8], what: &str) -> Result<(), String> {
        let pieces = self.inputs.pieces();
        let ran = self.program.run(file, pieces);
        let ran = ran.map_err(|error| format!("the program can't be run: {error}"))?;
        let right = (self.prints.output)(file);
        let wrong = fault(&ran).or_else(|| {
            let printed = String::from_utf8_lossy(&ran.output);
            let (a, b) = first_difference(&printed, &right);
            (ran.output != right.as_bytes()).then(|| format!("printed {a:?}, right is {b:?}"))
        });
        if let Some(wrong) = wrong {
            return Err(format!("{what}: {wrong}; {}", kept(file)));
        }
        self.met[ending(file)][answer(&right)] += 1;
        self.runs += 1;
        if self.said.elapsed() >= PROGRESS {
            self.said = Instant::now();
            let seconds = self.start.elapsed().as_secs();
            eprintln!("{} runs, {seconds} s: {what}", self.runs);
        }
        Ok(())
    }

    /// A sample: its stored output, every truncation from both ends, and every flipped bit where it is short.
    fn sample(&mut self, samples: &Path, name: &str) -> Result<(), String> {
        let file = read(&samples.join(format!("{name}.plume")))?;
        let stored = format!("{name}.{}", self.prints.stored);
        if (self.prints.output)(&file).as_bytes() != read(&samples.join(&stored))? {
            return Err(format!("{stored} is not what the reference prints"));
        }
        self.run(&file, name)?;
        for n in 0..file.len() {
            self.run(&file[..n], &format!("{name}, the first {n} bytes"))?;
            self.run(&file[n + 1..], &format!("{name} after byte {n}"))?;
        }
        let bits = if file.len() <= SHORT {
            8 * file.len()
        } else {
            0
        };
        for bit in 0..bits {
            let mut flipped = file.clone();
            flipped[bit / 8] ^= 1 << (bit % 8);
            self.run(&flipped, &format!("{name}, bit {bit} flipped"))?;
        }
        Ok(())
    }

    fn random(&mut self, count: u64, seed: u64) -> Result<(), String> {
        for number in 0..count {
            let file = self.inputs.next();
            self.run(&file, &format!("seed {seed}, file {number}"))?;
        }
        Ok(())
    }
}

/// The first line in which two texts differ.
fn first_difference<'a>(a: &'a str, b: &'a str) -> (&'a str, &'a str) {
    let (mut left, mut right) = (a.split('\n'), b.split('\n'));
    loop {
        match (left.next(), right.next()) {
            (Some(x), Some(y)) if x == y => continue,
            (None, None) => return ("", ""),
            (x, y) => return (x.unwrap_or("no more"), y.unwrap_or("no more")),
        }
    }
}

fn read(path: &Path) -> Result<Vec<u8>, String> {
    fs::read(path).map_err(|error| format!("{}: {error}", path.display()))
}

/// Keeps the file on which a difference was seen.
fn kept(file: &[u8]) -> String {
    let path = std::env::temp_dir().join("plume-difference.plume");
    match fs::write(&path, file) {
        Ok(()) => format!("the file is kept as {}", path.display()),
        Err(error) => format!("the file could not be kept: {error}"),
    }
}

fn all(hostile: &mut Hostile, samples: &Path, count: u64, seed: u64) -> Result<(), String> {
    for name in SAMPLES {
        hostile.sample(samples, name)?;
    }
    hostile.random(count, seed)?;
    for (mark, met) in ["PLUM", "PLU2"].iter().zip(&hostile.met) {
        if let (Some(number), true) = (met.iter().position(|&n| n == 0), count >= ENOUGH) {
            return Err(format!("answer {number} to a {mark:?} file was never met"));
        }
    }
    Ok(())
}

/// PROGRAM, what it prints, SAMPLES, COUNT and SEED, where the words are that.
fn arguments() -> Option<(PathBuf, Prints, PathBuf, u64, u64)> {
    let mut words = std::env::args().skip(1);
    let program = words.next()?;
    let prints = prints(&words.next()?)?;
    let samples = words.next()?;
    let mut number = |otherwise: u64| match words.next() {
        Some(word) => word.parse().ok(),
        None => Some(otherwise),
    };
    let (count, seed) = (number(100_000)?, number(1)?);
    Some((program.into(), prints, samples.into(), count, seed))
}

fn main() -> ExitCode {
    let (program, prints, samples, count, seed) = match arguments() {
        Some(given) => given,
        None => {
            eprintln!("usage: hostile PROGRAM lines|pages SAMPLES [COUNT [SEED]]");
            return ExitCode::from(2);
        }
    };
    let mut hostile = Hostile {
        program: Program::new(&program).expect("temporary files can be made"),
        prints,
        inputs: Inputs::new(seed),
        runs: 0,
        met: [[0; 7]; 3],
        start: Instant::now(),
        said: Instant::now(),
    };
    let ended = all(&mut hostile, &samples, count, seed);
    let seconds = hostile.start.elapsed().as_secs_f64();
    for (what, met) in ["\"PLUM\"", "\"PLU2\"", "no mark"].iter().zip(hostile.met) {
        println!("{what}: accepted, then refused 1 to 6: {met:?}");
    }
    match ended {
        Ok(()) => {
            println!(
                "{} runs equal, seed {seed}, in {seconds:.0} s",
                hostile.runs
            );
            ExitCode::SUCCESS
        }
        Err(what) => {
            println!("DIFFERENCE after {} equal runs: {what}", hostile.runs);
            ExitCode::from(1)
        }
    }
}
