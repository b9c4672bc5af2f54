//! Random scripts in which fields become unsound, for refusal 6 as request
//! 2026-06 tells it. Between the calls such a script writes numbers of the
//! field itself. Quotations here are sentences of that request.

use crate::checks::{smoke_elements, smoke_total, stored_total};
use crate::generator::{made, Maker};
use crate::lists::Call;
use crate::shape::{LARGEST_REMAINDER, LIMIT, NODES, PER_ELEMENT};

/// The script's text. It starts as a sound one does.
pub fn script(seed: u64, nx: usize, ny: usize, k: usize, count: usize) -> Result<String, u8> {
    made(Maker::next, seed, (nx, ny, k), count)
}

fn clamped(number: u64) -> u32 {
    u32::try_from(number).unwrap_or(u32::MAX)
}

impl Maker {
    /// A poke, then often a call that looks at stored numbers. Loads and mends
    /// are frequent, so that most smokes have one fault or none.
    fn next(&mut self) -> Call {
        match self.rng.below(40) {
            0..=8 => self.poke(),
            9..=13 => self.mend(),
            14 | 15 => Call::Load(self.smoke(), self.numbers()),
            16..=18 => self.emission(),
            19..=21 => self.withdrawal(),
            22 | 23 => {
                let (i, j) = self.element();
                Call::Mass(self.smoke(), i, j)
            }
            24 => Call::Total(self.smoke()),
            25 | 26 => self.refused_element(),
            27 | 28 => Call::Map(self.smoke()),
            29 => Call::Write,
            30 | 31 => Call::Step(self.smoke()),
            _ => self.any(),
        }
    }

    fn poke(&mut self) -> Call {
        let smoke = self.smoke();
        match self.rng.below(6) {
            0 => self.poke_remainder(smoke),
            1 => self.poke_value(smoke),
            2 => self.poke_full(smoke),
            _ => self.poke_total(smoke),
        }
    }

    fn stored(&self, smoke: usize) -> u64 {
        stored_total(&self.state.field, self.shape, smoke)
    }

    fn sum(&self, smoke: usize) -> u64 {
        smoke_total(&self.state.field, self.shape, smoke)
    }

    fn number(&self, smoke: usize, at: usize) -> u32 {
        self.state.field[self.shape.place(smoke, 0, 0) + at]
    }

    fn total_poke(&self, smoke: usize, total: u64) -> Call {
        Call::Poke(smoke, self.shape.elements_len(), clamped(total))
    }

    /// "a stored total above 100,000,000", one that differs from the sum by
    /// little or much, or one about what an element holds.
    fn poke_total(&mut self, smoke: usize) -> Call {
        let (i, j) = self.element();
        let (sum, held) = (self.sum(smoke), self.mass(smoke, i, j));
        let any = self.rng.below(LIMIT + 1);
        let total = match self.rng.below(8) {
            0 => self.rng.pick(&[LIMIT + 1, LIMIT + 1, u32::MAX.into()]),
            1 => sum + 1,
            2 => sum.saturating_sub(1),
            3 => self.rng.pick(&[0, LIMIT - 1, LIMIT]),
            4 => held,
            5 | 6 => held.saturating_sub(1),
            _ => any,
        };
        self.total_poke(smoke, total)
    }

    /// "that element's remainder above 35", or another good one.
    fn poke_remainder(&mut self, smoke: usize) -> Call {
        let at = PER_ELEMENT * self.rng.index(self.shape.elements()) + NODES;
        let good = self.rng.below(36) as u32;
        let rest = self.rng.pick(&[36, 36, 36, 37, 255, u32::MAX, 35, good]);
        Call::Poke(smoke, at, rest)
    }

    /// A value a little or far above the one that stands there.
    fn poke_value(&mut self, smoke: usize) -> Call {
        let element = PER_ELEMENT * self.rng.index(self.shape.elements());
        let at = element + self.rng.index(NODES);
        let value = self.number(smoke, at);
        let more = self.rng.pick(&[1, 1, 100, 1 << 30, u32::MAX]);
        Call::Poke(smoke, at, value.saturating_add(more))
    }

    /// An element that holds just the stored total, or one more: "an element
    /// holding more than it". Or the smoke's sum becomes the limit, or one
    /// more. A first node has weight 1.
    fn poke_full(&mut self, smoke: usize) -> Call {
        let (i, j) = self.element();
        let at = PER_ELEMENT * self.shape.element(i, j);
        let (stored, held) = (self.stored(smoke), self.mass(smoke, i, j));
        let room = match self.rng.once_in(2) {
            true => stored.saturating_sub(held),
            false => LIMIT.saturating_sub(self.sum(smoke)),
        };
        let value = u64::from(self.number(smoke, at)) + room + self.rng.below(2);
        Call::Poke(smoke, at, clamped(value))
    }

    /// Takes away one fault: a remainder above 35, or a stored total that
    /// isn't the sum. Where the sum is above the limit, the stored total goes
    /// there too, and only a load helps.
    fn mend(&mut self) -> Call {
        let smoke = self.smoke();
        let mut elements = smoke_elements(&self.state.field, self.shape, smoke).chunks(PER_ELEMENT);
        let large = elements.position(|element| element[NODES] > LARGEST_REMAINDER);
        match large {
            Some(at) if self.rng.once_in(3) => Call::Poke(smoke, PER_ELEMENT * at + NODES, 35),
            _ => self.total_poke(smoke, self.sum(smoke)),
        }
    }
}
