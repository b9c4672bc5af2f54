//! Random scripts of calls. The generator runs its own list while it makes
//! it, so that it can ask for exactly M, for M + 1, or for the room left. The
//! field stays sound; unsound ones are made in `unsound_generator`.

use crate::calls::Way;
use crate::checks::{element_mass, node_weight, stored_total, weighted_numbers};
use crate::import_generator::records;
use crate::lists::{Call, State};
use crate::rng::Rng;
use crate::shape::{Shape, LIMIT, NODES, PER_ELEMENT};

pub(crate) struct Maker {
    pub rng: Rng,
    pub shape: Shape,
    pub state: State,
}

/// The script's text.
pub fn script(seed: u64, nx: usize, ny: usize, k: usize, count: usize) -> Result<String, u8> {
    made(Maker::any, seed, (nx, ny, k), count)
}

/// A script of which each call is made by `next`. The first third sets winds
/// and loads smokes, so that even a short list has something to move.
pub(crate) fn made(
    next: fn(&mut Maker) -> Call,
    seed: u64,
    (nx, ny, k): (usize, usize, usize),
    count: usize,
) -> Result<String, u8> {
    let shape = Shape::checked(nx, ny, k)?;
    let mut maker = Maker {
        rng: Rng::new(seed),
        shape,
        state: State::new(nx, ny, k),
    };
    let winds = shape.wind_len().min(count / 4);
    let loads = k.min(count / 8);
    let mut text = format!("grid {nx} {ny} {k}\n");
    for at in 0..count {
        let call = if at < winds {
            maker.wind()
        } else if at < winds + loads {
            Call::Load(at - winds, maker.numbers())
        } else {
            next(&mut maker)
        };
        maker.state.run(&call);
        text.push_str(&format!("{call}\n"));
    }
    Ok(text)
}

impl Maker {
    pub fn any(&mut self) -> Call {
        match self.rng.below(100) {
            0..=29 => Call::Step(self.smoke()),
            30..=42 => self.wind(),
            43..=50 => self.import(),
            51..=55 => Call::Load(self.smoke(), self.numbers()),
            56..=68 => self.emission(),
            69..=81 => self.withdrawal(),
            82..=85 => {
                let (i, j) = self.element();
                Call::Mass(self.smoke(), i, j)
            }
            86..=88 => Call::Total(self.smoke()),
            _ => self.refused(),
        }
    }

    pub fn smoke(&mut self) -> usize {
        self.rng.index(self.shape.k)
    }

    pub fn element(&mut self) -> (usize, usize) {
        (self.rng.index(self.shape.nx), self.rng.index(self.shape.ny))
    }

    fn way(&mut self) -> Way {
        self.rng.pick(&[Way::East, Way::North])
    }

    fn wind(&mut self) -> Call {
        let (i, j) = self.element();
        Call::Wind(self.way(), i, j, self.rng.wind())
    }

    /// An import (request 2026-01), accepted or refused.
    fn import(&mut self) -> Call {
        Call::Import(records(&mut self.rng, self.shape.elements()))
    }

    /// What the element holds, in an unsound field too.
    pub fn mass(&self, smoke: usize, i: usize, j: usize) -> u64 {
        let place = self.shape.place(smoke, i, j);
        element_mass(&self.state.field[place..place + PER_ELEMENT])
    }

    /// How much may be emitted before the limit is met, by the stored total
    /// (request 2026-06).
    fn room(&self, smoke: usize) -> u64 {
        LIMIT.saturating_sub(stored_total(&self.state.field, self.shape, smoke))
    }

    pub fn emission(&mut self) -> Call {
        let (smoke, (i, j)) = (self.smoke(), self.element());
        let room = self.room(smoke);
        let q = match self.rng.below(8) {
            0 => room,
            1 => self.rng.below(room + 1),
            2 => 0,
            3 => self.rng.below(100_000).min(room),
            _ => self.rng.below(80).min(room),
        };
        Call::Emission(smoke, i, j, q)
    }

    pub fn withdrawal(&mut self) -> Call {
        let (smoke, (i, j)) = (self.smoke(), self.element());
        let held = self.mass(smoke, i, j);
        let q = match self.rng.below(8) {
            0 | 1 => held,
            2 => held.saturating_sub(1),
            3 => held.saturating_sub(self.rng.below(40)),
            4 => self.rng.below(40).min(held),
            _ => self.rng.below(held + 1),
        };
        Call::Withdrawal(smoke, i, j, q)
    }

    /// Numbers of a good load: mostly near-empty elements, a few spikes, and
    /// at times filled up to exactly the limit.
    pub fn numbers(&mut self) -> Vec<u32> {
        let mut numbers = vec![0; self.shape.load_len()];
        let small = self.rng.pick(&[1, 3, 40, 400]);
        for number in &mut numbers {
            if self.rng.once_in(5) {
                *number = self.rng.below(small + 1) as u32;
            }
        }
        let mut left = LIMIT - numbers.chunks(NODES).map(weighted_numbers).sum::<u64>();
        for _ in 0..self.rng.below(6) {
            let at = self.rng.index(numbers.len());
            let weight = node_weight(at % NODES) as u64;
            let spike = self.rng.below(left / weight / 2 + 1);
            numbers[at] += spike as u32;
            left -= weight * spike;
        }
        if self.rng.once_in(4) {
            // The first node is a corner of weight 1.
            numbers[0] += left as u32;
        }
        numbers
    }

    /// Numbers of a load above the limit, by one or by very much.
    fn numbers_above(&mut self) -> Vec<u32> {
        let mut numbers = self.numbers();
        if self.rng.once_in(2) {
            numbers.fill(u32::MAX);
            return numbers;
        }
        let sum: u64 = numbers.chunks(NODES).map(weighted_numbers).sum();
        numbers[0] += (LIMIT - sum) as u32 + 1;
        numbers
    }

    fn no_smoke(&mut self) -> usize {
        let k = self.shape.k;
        self.rng.pick(&[k, k, k + 1, 255, usize::MAX])
    }

    fn no_element(&mut self) -> (usize, usize) {
        let (i, j) = self.element();
        let Shape { nx, ny, .. } = self.shape;
        self.rng.pick(&[
            (nx, j),
            (i, ny),
            (nx, ny),
            (usize::MAX, j),
            (i, usize::MAX),
            (usize::MAX, usize::MAX),
        ])
    }

    /// A call that is refused, or with two faults at once, so that the
    /// order of the checks shows.
    fn refused(&mut self) -> Call {
        let smoke = self.smoke();
        let (i, j) = self.element();
        match self.rng.below(7) {
            0 => self.refused_wind(),
            1 => self.refused_load(),
            2 => self.refused_smoke(i, j),
            3 => self.refused_smoke_and_element(),
            4 => self.refused_element(),
            5 => {
                let over = self.room(smoke) + 1;
                Call::Emission(smoke, i, j, self.rng.pick(&[over, over, u64::MAX]))
            }
            _ => {
                let over = self.mass(smoke, i, j) + 1;
                Call::Withdrawal(smoke, i, j, self.rng.pick(&[over, over, u64::MAX]))
            }
        }
    }

    fn refused_wind(&mut self) -> Call {
        let c = self.rng.pick(&[1025, -1025, i16::MAX, i16::MIN]);
        let (i, j) = match self.rng.once_in(3) {
            true => self.no_element(),
            false => self.element(),
        };
        Call::Wind(self.way(), i, j, c)
    }

    fn refused_load(&mut self) -> Call {
        let smoke = self.smoke();
        let mut short = self.numbers();
        let cut = self.rng.pick(&[1, 1, short.len()]);
        short.truncate(short.len() - cut);
        match self.rng.below(5) {
            0 => Call::Load(smoke, short),
            1 => Call::Load(self.no_smoke(), short),
            2 => Call::Load(self.no_smoke(), self.numbers_above()),
            _ => Call::Load(smoke, self.numbers_above()),
        }
    }

    fn refused_smoke(&mut self, i: usize, j: usize) -> Call {
        let smoke = self.no_smoke();
        match self.rng.below(6) {
            0 => Call::Load(smoke, self.numbers()),
            1 => Call::Emission(smoke, i, j, 1),
            2 => Call::Withdrawal(smoke, i, j, 0),
            3 => Call::Step(smoke),
            4 => Call::Mass(smoke, i, j),
            _ => Call::Total(smoke),
        }
    }

    fn refused_smoke_and_element(&mut self) -> Call {
        let (smoke, (i, j)) = (self.no_smoke(), self.no_element());
        match self.rng.below(3) {
            0 => Call::Emission(smoke, i, j, u64::MAX),
            1 => Call::Withdrawal(smoke, i, j, u64::MAX),
            _ => Call::Mass(smoke, i, j),
        }
    }

    pub fn refused_element(&mut self) -> Call {
        let (smoke, (i, j)) = (self.smoke(), self.no_element());
        match self.rng.below(4) {
            0 => Call::Wind(self.way(), i, j, 1024),
            1 => Call::Emission(smoke, i, j, self.rng.pick(&[0, u64::MAX])),
            2 => Call::Withdrawal(smoke, i, j, self.rng.pick(&[0, u64::MAX])),
            _ => Call::Mass(smoke, i, j),
        }
    }
}
