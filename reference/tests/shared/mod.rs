//! What tests of whole lists share.

use reference::checks::weighted_numbers;
use reference::flux::face_elements;
use reference::lists::{Answer, Call};
use reference::Shape;

/// The ledger of document 01, fed with arguments and answers alone.
pub struct Ledger {
    shape: Shape,
    pub held: Vec<i64>,
}

impl Ledger {
    pub fn new(shape: Shape) -> Ledger {
        let held = vec![0; shape.k * shape.elements()];
        Ledger { shape, held }
    }

    fn at(&self, smoke: usize, i: usize, j: usize) -> usize {
        smoke * self.shape.elements() + self.shape.element(i, j)
    }

    pub fn feed(&mut self, call: &Call, answer: &Answer) {
        if let Answer::Refused(_) = answer {
            return;
        }
        match (call, answer) {
            (Call::Load(smoke, numbers), _) => {
                let start = self.at(*smoke, 0, 0);
                for at in 0..self.shape.elements() {
                    let nodes = &numbers[9 * at..9 * at + 9];
                    self.held[start + at] = weighted_numbers(nodes) as i64;
                }
            }
            (Call::Emission(smoke, i, j, q), _) => {
                let at = self.at(*smoke, *i, *j);
                self.held[at] += *q as i64;
            }
            (Call::Withdrawal(smoke, i, j, q), _) => {
                let at = self.at(*smoke, *i, *j);
                self.held[at] -= *q as i64;
            }
            (Call::Step(smoke), Answer::Stepped(report, _)) => {
                let start = self.at(*smoke, 0, 0);
                for (face, &moved) in report.iter().enumerate() {
                    let (low, high) = face_elements(self.shape, face);
                    self.held[start + low] -= i64::from(moved);
                    self.held[start + high] += i64::from(moved);
                }
            }
            // "Wind calls and refused calls change nothing." An import is a call
            // on the wind as well; a reading writes nothing.
            _ => {}
        }
    }
}
