//! Random byte strings for the program: noise, tails, sound files, damaged ones, and lengths about the limit of 65,536.

use compare::content;
use compare::damage::damage;
use compare::files::{any_mark, bytes, sound, tailed, wild_content};
use reference::rng::Rng;
use reference::{Mark, Shape};

/// The largest file that the program looks at.
const LARGEST: usize = 65_536;

/// The most elements for which it has buffers.
const ELEMENTS: usize = 128;

pub struct Inputs {
    rng: Rng,
    /// Marks and shapes whose files are about as long as the largest.
    near_largest: Vec<(Mark, Shape)>,
}

fn layouts() -> impl Iterator<Item = (Mark, Shape)> {
    let sides = (1..=64).flat_map(|nx| (1..=64).map(move |ny| (nx, ny)));
    let shapes = sides.flat_map(|(nx, ny)| (1..=8).map(move |k| Shape { nx, ny, k }));
    shapes.flat_map(|shape| [(Mark::Plum, shape), (Mark::Plu2, shape)])
}

impl Inputs {
    pub fn new(seed: u64) -> Inputs {
        let near = |(mark, shape): &(Mark, Shape)| shape.file_len(*mark).abs_diff(LARGEST) < 600;
        Inputs {
            rng: Rng::new(seed),
            near_largest: layouts().filter(near).collect(),
        }
    }

    /// How many bytes at a time to send through a pipe; most runs read a file.
    pub fn pieces(&mut self) -> Option<usize> {
        let most = self.rng.pick(&[16, 600, 5_000, 100_000]);
        self.rng.once_in(10).then(|| 1 + self.rng.index(most))
    }

    pub fn next(&mut self) -> Vec<u8> {
        let rng = &mut self.rng;
        match rng.below(100) {
            0..=9 => {
                let count = rng.index(201);
                bytes(rng, count)
            }
            10..=17 => {
                let count = rng.index(600);
                tailed(rng, count)
            }
            18 => {
                let count = rng.pick(&[0, 1, 11, 12, 13]);
                bytes(rng, count)
            }
            19..=34 => {
                let (mark, shape) = self.layout();
                sound(&mut self.rng, mark, shape)
            }
            35..=41 => {
                let (mark, shape) = self.layout();
                wild_content(&mut self.rng, mark, shape)
            }
            42..=92 => {
                let (mark, shape) = self.layout();
                let mut file = sound(&mut self.rng, mark, shape);
                damage(&mut self.rng, &mut file, mark, shape);
                file
            }
            93..=95 => self.joined(),
            _ => self.long(),
        }
    }

    fn layout(&mut self) -> (Mark, Shape) {
        (any_mark(&mut self.rng), self.shape())
    }

    /// Small shapes most often; some of nearly, exactly or just over 128 elements; a few of any.
    fn shape(&mut self) -> Shape {
        let rng = &mut self.rng;
        let k = 1 + rng.index(8);
        let sides = [
            (64, 2),
            (2, 64),
            (16, 8),
            (11, 11),
            (43, 3),
            (13, 10),
            (1, 64),
        ];
        match rng.below(20) {
            0 => {
                let (nx, ny) = rng.pick(&sides);
                Shape { nx, ny, k }
            }
            1 => {
                let nx = 1 + rng.index(64);
                let most = (ELEMENTS / nx).clamp(1, 64);
                let ny = 1 + rng.index(most);
                Shape { nx, ny, k }
            }
            _ => content::shape(rng, 100),
        }
    }

    /// Two files one after the other: the reader starts at the end and must see that the length is wrong.
    fn joined(&mut self) -> Vec<u8> {
        let ((mark, first), (other, second)) = (self.layout(), self.layout());
        let mut file = sound(&mut self.rng, mark, first);
        file.extend(sound(&mut self.rng, other, second));
        file
    }

    /// About the largest length, or far over it.
    fn long(&mut self) -> Vec<u8> {
        let rng = &mut self.rng;
        let about = LARGEST - 8 + rng.index(17);
        match rng.below(7) {
            0 => bytes(rng, about),
            1 => tailed(rng, about),
            2 => vec![0; about],
            3 => {
                let far = LARGEST + rng.index(200_000);
                tailed(rng, far)
            }
            4 => {
                // a sound file behind bytes that make it just as long as the program takes, or one more
                let (mark, shape) = self.layout();
                let file = sound(&mut self.rng, mark, shape);
                let front = (LARGEST + self.rng.index(2)).saturating_sub(file.len());
                [vec![0; front], file].concat()
            }
            _ => {
                let (mark, shape) = self.near_largest[rng.index(self.near_largest.len())];
                sound(rng, mark, shape)
            }
        }
    }
}
