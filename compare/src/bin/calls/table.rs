//! How many calls of each kind got which answer, and whether all that documents 01 and 02 name were met.

use crate::call::{Call, KINDS};

/// The largest number of a refusal.
const LAST: usize = 12;

/// The refusals that each call may answer, in the order of `KINDS`.
const REFUSALS: [&[usize]; KINDS.len()] = [
    &[2, 4],
    &[2, 4, 5, 8],
    &[2, 4, 5, 11, 12],
    &[2, 4, 7, 9],
    &[2, 4, 6, 7, 8, 9],
    &[2, 4, 6, 7, 8, 10],
    &[2, 4, 5, 6, 7],
    &[2, 4, 6, 7, 8],
    &[2, 4, 6, 7],
    &[2, 4, 6, 7],
    &[1, 2, 3, 4, 5, 6],
    &[2, 4, 5, 6],
];

#[derive(Default)]
pub struct Table {
    met: [[u64; LAST + 1]; KINDS.len()],
    pub calls: u64,
}

impl Table {
    /// Counts an answer. One that the call must never give is told.
    pub fn count(&mut self, call: &Call, answer: i64) -> Result<(), String> {
        let (kind, refusal) = (call.kind(), call.refusal(answer));
        let known = usize::try_from(refusal).ok().filter(|&n| may(kind, n));
        let number = known.ok_or_else(|| {
            let name = KINDS[kind];
            format!("{name} must never be refused with {refusal}")
        })?;
        self.met[kind][number] += 1;
        self.calls += 1;
        Ok(())
    }

    pub fn print(&self) {
        print!("{:<12}{:>8}{:>9}", "call", "calls", "accepted");
        for number in 1..=LAST {
            print!("{number:>7}");
        }
        println!();
        for (kind, met) in self.met.iter().enumerate() {
            line(KINDS[kind], met, |number| may(kind, number));
        }
        let of_number = |number: usize| self.met.iter().map(|met| met[number]).sum();
        line("all", &std::array::from_fn(of_number), |_| true);
    }

    /// The entries that were never met.
    pub fn missing(&self) -> Vec<String> {
        let mut missing = Vec::new();
        for (kind, met) in self.met.iter().enumerate() {
            for (number, &count) in met.iter().enumerate() {
                if may(kind, number) && count == 0 {
                    missing.push(format!("{} answered {number}", KINDS[kind]));
                }
            }
        }
        missing
    }
}

/// A line of the table; a dash where an answer can't be.
fn line(name: &str, met: &[u64; LAST + 1], may: impl Fn(usize) -> bool) {
    let sum: u64 = met.iter().sum();
    print!("{name:<12}{sum:>8}{:>9}", met[0]);
    for (number, count) in met.iter().enumerate().skip(1) {
        match may(number) {
            true => print!("{count:>7}"),
            false => print!("{:>7}", "-"),
        }
    }
    println!();
}

fn may(kind: usize, number: usize) -> bool {
    number == 0 || REFUSALS[kind].contains(&number)
}
