//! Lists of calls: their script form, and a state that runs them.

use crate::calls::{emission, load, mass, total, wind, withdrawal, Way};
use crate::file::{write_file, Mark};
use crate::import::import;
use crate::map::map;
use crate::shape::Shape;
use crate::step::step;
use std::fmt;
use std::str::{FromStr, SplitWhitespace};

#[derive(Clone, Debug, PartialEq, Eq)]
pub enum Call {
    Wind(Way, usize, usize, i16),
    /// "The smoke ledger's lists may hold wind imports" (request 2026-01).
    /// The records stand in the list itself, as a load's numbers do. It names
    /// no smoke, so like a wind call it is never struck.
    Import(Vec<u8>),
    Load(usize, Vec<u32>),
    Emission(usize, usize, usize, u64),
    Withdrawal(usize, usize, usize, u64),
    Step(usize),
    Mass(usize, usize, usize),
    Total(usize),
    /// The printed map of a smoke, of which the script shows only the number.
    Map(usize),
    /// File writing, of which the script shows only the length.
    Write,
    /// No call of the document: the script itself writes one number of a
    /// smoke's part of the field, by its place in the part. It makes fields
    /// unsound; the stored total (request 2026-06) is the last number.
    Poke(usize, usize, u32),
}

#[derive(Clone, Debug, PartialEq, Eq)]
pub enum Answer {
    Accepted,
    /// An accepted emission's or withdrawal's clipped mass (request 2026-04).
    Closed(u64),
    /// "An accepted step's answer there includes the report"; beside it stands
    /// the step's clipped mass (request 2026-04).
    Stepped(Vec<i32>, u64),
    Number(u64),
    Refused(u8),
    /// A number was written by the script.
    Poked,
}

/// A grid with field and wind all zero and buffers of exactly the needed
/// lengths. A shape outside its ranges gets empty ones: every call on it
/// meets 2 before a length is looked at.
#[derive(Clone)]
pub struct State {
    nx: usize,
    ny: usize,
    k: usize,
    pub field: Vec<u32>,
    pub wind: Vec<i16>,
    report: Vec<i32>,
    work: Vec<i64>,
}

impl State {
    pub fn new(nx: usize, ny: usize, k: usize) -> State {
        let (field, faces, work) = match Shape::checked(nx, ny, k) {
            Ok(shape) => (shape.field_len(), shape.wind_len(), shape.work_len()),
            Err(_) => (0, 0, 0),
        };
        State {
            nx,
            ny,
            k,
            field: vec![0; field],
            wind: vec![0; faces],
            report: vec![0; faces],
            work: vec![0; work],
        }
    }

    /// The error is refusal 2.
    pub fn shape(&self) -> Result<Shape, u8> {
        Shape::checked(self.nx, self.ny, self.k)
    }

    pub fn run(&mut self, call: &Call) -> Answer {
        self.attempt(call).unwrap_or_else(Answer::Refused)
    }

    fn attempt(&mut self, call: &Call) -> Result<Answer, u8> {
        let State { nx, ny, k, .. } = *self;
        let field = &mut self.field;
        match call {
            Call::Wind(way, i, j, c) => wind(&mut self.wind, nx, ny, k, *way, *i, *j, *c)?,
            Call::Import(records) => import(&mut self.wind, records, nx, ny, k)?,
            Call::Load(s, numbers) => load(field, numbers, nx, ny, k, *s)?,
            Call::Emission(s, i, j, q) => {
                return emission(field, nx, ny, k, *s, *i, *j, *q).map(Answer::Closed);
            }
            Call::Withdrawal(s, i, j, q) => {
                return withdrawal(field, nx, ny, k, *s, *i, *j, *q).map(Answer::Closed);
            }
            Call::Step(s) => {
                let (report, work) = (&mut self.report, &mut self.work);
                let clipped = step(field, &self.wind, report, work, nx, ny, k, *s)?;
                return Ok(Answer::Stepped(self.report.clone(), clipped));
            }
            Call::Mass(s, i, j) => return Ok(Answer::Number(mass(field, nx, ny, k, *s, *i, *j)?)),
            Call::Total(s) => return Ok(Answer::Number(total(field, nx, ny, k, *s)?)),
            Call::Map(s) => return self.printed(*s),
            Call::Write => return self.written(),
            Call::Poke(s, at, number) => return self.poked(*s, *at, *number),
        }
        Ok(Answer::Accepted)
    }

    fn printed(&self, smoke: usize) -> Result<Answer, u8> {
        let mut page = vec![0; self.shape()?.page_len()];
        let written = map(&mut page, &self.field, self.nx, self.ny, self.k, smoke)?;
        Ok(Answer::Number(written))
    }

    fn written(&self) -> Result<Answer, u8> {
        let mut out = vec![0; self.shape()?.file_len(Mark::Plu2)];
        let (field, wind) = (&self.field, &self.wind);
        let length = write_file(field, wind, &mut out, self.nx, self.ny, self.k)?;
        Ok(Answer::Number(length as u64))
    }

    fn poked(&mut self, smoke: usize, at: usize, number: u32) -> Result<Answer, u8> {
        let start = self.shape()?.place(smoke, 0, 0);
        self.field[start + at] = number;
        Ok(Answer::Poked)
    }

    /// Is the place of a poke in the field? That of any other call is a check
    /// of its own.
    fn has_place(&self, call: &Call) -> bool {
        match (call, self.shape()) {
            (Call::Poke(s, at, _), Ok(shape)) => *s < shape.k && *at < shape.smoke_len(),
            (Call::Poke(..), Err(_)) => false,
            _ => true,
        }
    }
}

fn joined<T: fmt::Display>(head: &str, numbers: &[T]) -> String {
    let mut line = head.to_string();
    for number in numbers {
        line.push(' ');
        line.push_str(&number.to_string());
    }
    line
}

impl fmt::Display for Answer {
    fn fmt(&self, f: &mut fmt::Formatter) -> fmt::Result {
        match self {
            Answer::Accepted => write!(f, "accepted"),
            Answer::Closed(clipped) => write!(f, "accepted clipped {clipped}"),
            Answer::Stepped(report, clipped) => {
                write!(f, "{} clipped {clipped}", joined("accepted", report))
            }
            Answer::Number(number) => write!(f, "{number}"),
            Answer::Refused(number) => write!(f, "refused {number}"),
            Answer::Poked => write!(f, "poked"),
        }
    }
}

impl fmt::Display for Call {
    fn fmt(&self, f: &mut fmt::Formatter) -> fmt::Result {
        match self {
            Call::Wind(Way::East, i, j, c) => write!(f, "wind east {i} {j} {c}"),
            Call::Wind(Way::North, i, j, c) => write!(f, "wind north {i} {j} {c}"),
            Call::Import(records) => write!(f, "{}", joined("import", records)),
            Call::Load(s, numbers) => write!(f, "{}", joined(&format!("load {s}"), numbers)),
            Call::Emission(s, i, j, q) => write!(f, "emission {s} {i} {j} {q}"),
            Call::Withdrawal(s, i, j, q) => write!(f, "withdrawal {s} {i} {j} {q}"),
            Call::Step(s) => write!(f, "step {s}"),
            Call::Mass(s, i, j) => write!(f, "mass {s} {i} {j}"),
            Call::Total(s) => write!(f, "total {s}"),
            Call::Map(s) => write!(f, "map {s}"),
            Call::Write => write!(f, "write"),
            Call::Poke(s, at, number) => write!(f, "poke {s} {at} {number}"),
        }
    }
}

/// The next word as a number.
fn next<T: FromStr>(words: &mut SplitWhitespace) -> Result<T, String> {
    let word = words.next().ok_or("a number is missing")?;
    word.parse().map_err(|_| format!("bad number {word}"))
}

/// All words to the end of the line as numbers.
fn all<T: FromStr>(words: &mut SplitWhitespace) -> Result<Vec<T>, String> {
    let number = |word: &str| word.parse().map_err(|_| format!("bad number {word}"));
    words.map(number).collect()
}

fn parsed_words(words: &mut SplitWhitespace) -> Result<Call, String> {
    let call = match words.next().unwrap_or("") {
        "wind" => {
            let way = match words.next() {
                Some("east") => Way::East,
                Some("north") => Way::North,
                _ => return Err("wind needs east or north".to_string()),
            };
            Call::Wind(way, next(words)?, next(words)?, next(words)?)
        }
        // The records' bytes, each as a number; none at all is a list too.
        "import" => Call::Import(all(words)?),
        "load" => Call::Load(next(words)?, all(words)?),
        "emission" => Call::Emission(next(words)?, next(words)?, next(words)?, next(words)?),
        "withdrawal" => Call::Withdrawal(next(words)?, next(words)?, next(words)?, next(words)?),
        "step" => Call::Step(next(words)?),
        "mass" => Call::Mass(next(words)?, next(words)?, next(words)?),
        "total" => Call::Total(next(words)?),
        "map" => Call::Map(next(words)?),
        "write" => Call::Write,
        "poke" => Call::Poke(next(words)?, next(words)?, next(words)?),
        other => return Err(format!("no call named {other:?}")),
    };
    Ok(call)
}

impl FromStr for Call {
    type Err = String;

    fn from_str(line: &str) -> Result<Call, String> {
        let mut words = line.split_whitespace();
        let call = parsed_words(&mut words)?;
        match words.next() {
            Some(word) => Err(format!("unexpected {word}")),
            None => Ok(call),
        }
    }
}

/// The first line's state.
fn grid(line: &str) -> Result<State, String> {
    let mut words = line.split_whitespace();
    if words.next() != Some("grid") {
        return Err("the first line must be: grid NX NY K".to_string());
    }
    Ok(State::new(
        next(&mut words)?,
        next(&mut words)?,
        next(&mut words)?,
    ))
}

/// A script's state at the start, and its calls. Blank lines are passed over.
pub fn parsed(script: &str) -> Result<(State, Vec<Call>), String> {
    let mut lines = script.lines().filter(|line| !line.trim().is_empty());
    let state = grid(lines.next().unwrap_or(""))?;
    let call = |line: &str| match line.parse() {
        Ok(call) if state.has_place(&call) => Ok(call),
        Ok(_) => Err(format!("no such place in: {line}")),
        Err(what) => Err(format!("{what} in: {line}")),
    };
    let calls = lines.map(call).collect::<Result<_, _>>()?;
    Ok((state, calls))
}

/// Runs a script and gives what is printed.
pub fn output(script: &str) -> Result<String, String> {
    let (mut state, calls) = parsed(script)?;
    let mut text = String::new();
    for call in &calls {
        text.push_str(&format!("{}\n", state.run(call)));
    }
    text.push_str(&joined("field", &state.field));
    text.push('\n');
    text.push_str(&joined("wind", &state.wind));
    text.push('\n');
    Ok(text)
}
