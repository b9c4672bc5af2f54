//! One call on both sides, with the same buffers, and what must be the same afterwards.

use crate::buffers::Buffers;
use crate::call::{make, Call, Calls, Operation};
use crate::list::Expected;
use reference::file::encoded_as;
use reference::Mark;

/// The buffers of the two sides, and both as they were before the call.
pub struct Comparison {
    pub ours: Buffers,
    theirs: Buffers,
    pub before: Buffers,
}

impl Comparison {
    pub fn new() -> Comparison {
        Comparison {
            ours: Buffers::empty(),
            theirs: Buffers::empty(),
            before: Buffers::empty(),
        }
    }

    /// Makes the call on both sides. Gives the answer, or says what differs.
    pub fn run(
        &mut self,
        library: &impl Calls,
        other: &impl Calls,
        call: &Call,
        expected: Expected,
    ) -> Result<i64, String> {
        self.before.copy_from(&self.ours);
        self.theirs.copy_from(&self.ours);
        let answer = make(library, call, &mut self.ours);
        let right = make(other, call, &mut self.theirs);
        if answer != right {
            return Err(format!("answers: library {answer}, reference {right}"));
        }
        let refused = call.refusal(answer) != 0;
        if refused && expected != Expected::Nothing {
            return Err(format!("a file just written or read was refused: {answer}"));
        }
        if let (Operation::Step(_), false) = (call.operation, refused) {
            // "An accepted step leaves work free: any content", and "Surplus is left alone".
            let needed = 64 * call.grid.nx * call.grid.ny;
            self.theirs.work.copy_front_from(&self.ours.work, needed);
        }
        self.same(call, refused, expected, answer)?;
        Ok(answer)
    }

    fn same(
        &self,
        call: &Call,
        refused: bool,
        expected: Expected,
        answer: i64,
    ) -> Result<(), String> {
        if let Some(what) = self.ours.difference(&self.theirs) {
            return Err(format!("library and reference leave {what}"));
        }
        if refused {
            return match self.ours.difference(&self.before) {
                Some(what) => Err(format!("refused, and yet now and before are {what}")),
                None => Ok(()),
            };
        }
        let (ours, before) = (&self.ours, &self.before);
        let broken = match expected {
            Expected::Nothing => None,
            Expected::SameField => None
                .or_else(|| ours.field.difference("field", &before.field))
                .or_else(|| ours.wind.difference("wind", &before.wind)),
            Expected::SameFile => {
                let same = ours.out.lent().get(..answer as usize) == Some(ours.file.lent());
                (!same).then(|| "other bytes than the file that was read".to_string())
            }
            Expected::NewMark => {
                let file = |mark| {
                    let (field, wind) = (ours.field.lent(), ours.wind.lent());
                    encoded_as(mark, field, wind, call.grid.shape())
                };
                let written = ours.out.lent().get(..answer as usize);
                let same =
                    ours.file.lent() == file(Mark::Plum) && written == Some(&file(Mark::Plu2)[..]);
                (!same).then(|| "more than the totals, the offsets and the mark".to_string())
            }
        };
        match broken {
            Some(what) => Err(format!("the round trip changed {what}")),
            None => Ok(()),
        }
    }
}
