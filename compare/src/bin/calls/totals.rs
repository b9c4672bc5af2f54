//! What the calls met of stored totals (document 02, 2026-06): refusals with 6 by their cause, accepted calls on smokes whose sum is another
//! number, and files of both marks.

use crate::buffers::Buffers;
use crate::call::{Call, Operation, KINDS};
use crate::causes::{cause, Cause, CAUSES};
use crate::list::Expected;
use reference::checks::{smoke_total, stored_total};
use reference::shape::LIMIT;
use reference::Mark;

const NAMED: &[Cause] = &[Cause::Remainder, Cause::Stored, Cause::OffGrid, Cause::Held];

const WHOLE: &[Cause] = &[
    Cause::Remainder,
    Cause::Stored,
    Cause::Sum,
    Cause::Above,
    Cause::Wrapped,
    Cause::Differ,
];

/// The causes that each call may have alone; file reading once for each mark.
const ROWS: [(&str, &[Cause]); 9] = [
    ("emission", NAMED),
    ("withdrawal", NAMED),
    ("step", WHOLE),
    ("mass", NAMED),
    ("total", &[Cause::Stored]),
    ("map", WHOLE),
    ("read PLUM", &[Cause::Remainder, Cause::Sum, Cause::Wrapped]),
    ("read PLU2", WHOLE),
    ("write", WHOLE),
];

/// The kinds of call that may be accepted on a smoke whose sum isn't its stored total.
const APART: [usize; 5] = [3, 4, 5, 7, 8];

#[derive(Default)]
pub struct Totals {
    causes: [[u64; CAUSES.len()]; ROWS.len()],
    apart: [u64; KINDS.len()],
    /// Accepted emissions that bring the sum above the limit.
    sum_above: u64,
    /// Emissions refused with 9 that would leave the sum within it.
    sum_within: u64,
    read_back: u64,
    written_again: u64,
    new_mark: u64,
}

impl Totals {
    /// Looks at a call that both sides answered alike, with the buffers as they were before it.
    pub fn count(&mut self, call: &Call, expected: Expected, answer: i64, before: &Buffers) {
        match call.refusal(answer) {
            0 => self.accepted(call, expected, before),
            6 => self.unsound(call, before),
            9 => self.over_limit(call, before),
            _ => {}
        }
    }

    fn accepted(&mut self, call: &Call, expected: Expected, before: &Buffers) {
        match expected {
            Expected::Nothing => {}
            Expected::SameField => self.read_back += 1,
            Expected::SameFile => self.written_again += 1,
            Expected::NewMark => self.new_mark += 1,
        }
        let (smoke, more) = match call.operation {
            Operation::Emission(at, q) => (at.smoke, q),
            Operation::Withdrawal(at, _) | Operation::Mass(at) => (at.smoke, 0),
            Operation::Load(smoke) | Operation::Total(smoke) => (smoke, 0),
            _ => return,
        };
        let (field, shape) = (before.field.lent(), call.grid.shape());
        let sum = smoke_total(field, shape, smoke);
        self.apart[call.kind()] += u64::from(sum != stored_total(field, shape, smoke));
        self.sum_above += u64::from(more > 0 && sum + more > LIMIT);
    }

    fn unsound(&mut self, call: &Call, before: &Buffers) {
        let plum = before.file.lent().ends_with(Mark::Plum.bytes());
        let name = match (KINDS[call.kind()], plum) {
            ("read", true) => "read PLUM",
            ("read", false) => "read PLU2",
            (name, _) => name,
        };
        let row = ROWS.iter().position(|row| row.0 == name);
        let row = row.expect("no other call is refused with 6");
        self.causes[row][cause(call, before) as usize] += 1;
    }

    fn over_limit(&mut self, call: &Call, before: &Buffers) {
        if let Operation::Emission(at, q) = call.operation {
            let sum = smoke_total(before.field.lent(), call.grid.shape(), at.smoke);
            self.sum_within += u64::from(sum.saturating_add(q) <= LIMIT);
        }
    }

    pub fn print(&self) {
        print!("{:<12}", "answered 6");
        for name in CAUSES {
            print!("{name:>10}");
        }
        println!();
        for ((name, causes), counts) in ROWS.iter().zip(&self.causes) {
            line(name, causes, counts);
        }
        let apart = APART.map(|kind| format!("{} {}", KINDS[kind], self.apart[kind]));
        println!(
            "accepted where sum and stored total differ: {}",
            apart.join(", ")
        );
        println!(
            "{} accepted emissions bring the sum above {LIMIT}, {} refused with 9 leave it within",
            self.sum_above, self.sum_within
        );
        println!(
            "{} written files read back; {} read files written again, {} of them \"PLUM\" files",
            self.read_back,
            self.written_again + self.new_mark,
            self.new_mark
        );
    }

    /// What was never met.
    pub fn missing(&self) -> Vec<String> {
        let mut missing = Vec::new();
        let mut look = |count: u64, what: String| {
            if count == 0 {
                missing.push(what);
            }
        };
        for ((name, causes), counts) in ROWS.iter().zip(&self.causes) {
            for &cause in *causes {
                let what = CAUSES[cause as usize];
                look(
                    counts[cause as usize],
                    format!("{name} answered 6 for {what} alone"),
                );
            }
        }
        for kind in APART {
            let what = format!("{} accepted where sum and stored total differ", KINDS[kind]);
            look(self.apart[kind], what);
        }
        look(
            self.sum_above,
            "an emission with the sum above the limit".into(),
        );
        look(self.sum_within, "9 with the sum within the limit".into());
        look(self.read_back, "a written file read back".into());
        look(self.written_again, "a \"PLU2\" file written again".into());
        look(self.new_mark, "a \"PLUM\" file written again".into());
        missing
    }
}

/// A line of the table; a dash where a cause can't be.
fn line(name: &str, causes: &[Cause], counts: &[u64]) {
    print!("{name:<12}");
    for (at, count) in counts.iter().enumerate() {
        match causes.iter().any(|&cause| cause as usize == at) || *count > 0 {
            true => print!("{count:>10}"),
            false => print!("{:>10}", "-"),
        }
    }
    println!();
}
