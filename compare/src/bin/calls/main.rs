//! Random lists of calls on the proved library and on the reference program, with the same buffers. After each call the answers
//! and every lent number must be the same. Usage: calls [COUNT [SEED]]

mod arguments;
mod buffers;
mod call;
mod causes;
mod comparison;
mod coverage;
mod field;
mod library;
mod list;
mod other;
mod pages;
mod records;
mod table;
mod totals;
mod wild;

use call::{Call, KINDS};
use comparison::Comparison;
use coverage::Coverage;
use library::Library;
use list::{Expected, List};
use other::Other;
use reference::rng::Rng;
use std::process::ExitCode;
use std::time::Instant;
use table::Table;
use totals::Totals;

/// From how many calls on each answer must be met, and each cause of 6.
const ENOUGH: u64 = 20_000;
const ENOUGH_FOR_CAUSES: u64 = 100_000;

/// Everything that a run counts.
#[derive(Default)]
struct Run {
    table: Table,
    coverage: Coverage,
    totals: Totals,
    /// How many pages at the edges were equal.
    pages: u64,
    /// Whether each call is printed before it is made: a library that crashes says nothing itself.
    trace: bool,
}

impl Run {
    /// One call of a list; the error says what differs.
    fn call(&mut self, rng: &mut Rng, list: &mut List, c: &mut Comparison) -> Result<(), String> {
        let (call, expected) = list.next(rng, &mut c.ours);
        if self.trace {
            eprintln!("{}: {}", self.table.calls, described(&call, c));
        }
        let answer = c
            .run(&Library, &Other, &call, expected)
            .and_then(|answer| self.table.count(&call, answer).map(|()| answer))
            .map_err(|what| format!("{}\n{what}", described(&call, c)))?;
        if call.refusal(answer) == 0 {
            self.coverage
                .accepted(rng, &call, answer, &c.before, &c.ours)
                .map_err(|what| format!("{}\n{what}", described(&call, c)))?;
        }
        self.totals.count(&call, expected, answer, &c.before);
        list.after(rng, &call, answer, &mut c.ours);
        Ok(())
    }

    /// The pages at the edges, each in a buffer of just its length.
    fn pages(&mut self) -> Result<(), String> {
        let mut c = Comparison::new();
        for (nx, ny) in pages::SHAPES {
            for element in pages::elements(nx, ny) {
                let call = pages::full_element(&mut c.ours, nx, ny, element);
                let answer = c.run(&Library, &Other, &call, Expected::Nothing);
                let length =
                    answer.map_err(|what| format!("DIFFERENCE, page {nx} by {ny}: {what}"))?;
                pages::check(&c.ours, length)?;
                self.pages += 1;
            }
        }
        Ok(())
    }

    fn lists(&mut self, count: u64, seed: u64) -> Result<(), String> {
        let mut rng = Rng::new(seed);
        let mut c = Comparison::new();
        while self.table.calls < count {
            let mut list = List::begin(&mut rng, &mut c.ours);
            while list.left > 0 && self.table.calls < count {
                let number = self.table.calls;
                self.call(&mut rng, &mut list, &mut c)
                    .map_err(|what| format!("DIFFERENCE, seed {seed}, call {number}: {what}"))?;
            }
        }
        Ok(())
    }
}

fn described(call: &Call, c: &Comparison) -> String {
    let Call { grid, operation } = call;
    let name = KINDS[call.kind()];
    let lengths = c.ours.lengths();
    format!("{name}: {operation:?} on {grid:?}\nlent: {lengths}")
}

/// COUNT and SEED, where the words are that.
fn arguments() -> Option<(u64, u64)> {
    let mut words = std::env::args().skip(1);
    let mut number = |otherwise: u64| match words.next() {
        Some(word) => word.parse().ok(),
        None => Some(otherwise),
    };
    Some((number(100_000)?, number(1)?))
}

fn main() -> ExitCode {
    let (count, seed) = match arguments() {
        Some(given) => given,
        None => {
            eprintln!("usage: calls [COUNT [SEED]]");
            return ExitCode::from(2);
        }
    };
    let mut run = Run {
        trace: std::env::var_os("COMPARE_TRACE").is_some(),
        ..Run::default()
    };
    let start = Instant::now();
    let ended = run.pages().and_then(|()| run.lists(count, seed));
    println!("{} pages at the edges equal", run.pages);
    run.table.print();
    run.coverage.print();
    run.totals.print();
    if let Err(what) = ended {
        println!("{what}");
        return ExitCode::from(1);
    }
    let mut missing = Vec::new();
    if count >= ENOUGH {
        missing.extend(run.table.missing());
    }
    if count >= ENOUGH_FOR_CAUSES {
        missing.extend(run.totals.missing());
    }
    if !missing.is_empty() {
        println!("NOT MET, seed {seed}: {}", missing.join(", "));
        return ExitCode::from(1);
    }
    let seconds = start.elapsed().as_secs_f64();
    println!("{count} calls equal, seed {seed}, in {seconds:.1} s");
    ExitCode::SUCCESS
}
