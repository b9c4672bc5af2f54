//! Upwind values and tendencies of one stage.

use crate::closing::{floor_div, Nodes};
use crate::shape::{Shape, OMEGA};

/// "Rows q of E: (−3, 4, −1), (−1, 0, 1), (1, −4, 3)."
const E: [[i128; 3]; 3] = [[-3, 4, -1], [-1, 0, 1], [1, -4, 3]];

/// The face winds of a shape; each element owns its east and north face.
#[derive(Clone, Copy)]
pub struct Winds<'a> {
    pub shape: Shape,
    pub faces: &'a [i16],
}

impl Winds<'_> {
    pub fn east(&self, i: usize, j: usize) -> i128 {
        i128::from(self.faces[self.shape.element(i, j)])
    }

    pub fn north(&self, i: usize, j: usize) -> i128 {
        let shape = self.shape;
        i128::from(self.faces[shape.elements() + shape.element(i, j)])
    }

    /// "on an east face with C ≥ 0 node (2, b) of the west element, else
    /// node (0, b) of the east element"; (i, j) is the face's west element.
    pub fn upwind_east(&self, stage: &[Nodes], i: usize, j: usize, b: usize) -> i128 {
        if self.east(i, j) >= 0 {
            stage[self.shape.element(i, j)][node(2, b)]
        } else {
            stage[self.shape.element(self.shape.east_of(i), j)][node(0, b)]
        }
    }

    /// "north faces likewise"; (i, j) is the face's south element.
    pub fn upwind_north(&self, stage: &[Nodes], i: usize, j: usize, a: usize) -> i128 {
        if self.north(i, j) >= 0 {
            stage[self.shape.element(i, j)][node(a, 2)]
        } else {
            stage[self.shape.element(i, self.shape.north_of(j))][node(a, 0)]
        }
    }
}

/// Place of node (a, b) among the nine: "b outer, a inner".
pub fn node(a: usize, b: usize) -> usize {
    3 * b + a
}

/// One end of a line of nodes: the face's wind and its upwind value there.
struct End {
    c: i128,
    upwind: i128,
}

/// X for the three nodes of one line, from the west (or south) end to the
/// east (or north) end. "Y is the same along b with south and north."
fn along(phi: [i128; 3], low: &End, high: &End) -> [i128; 3] {
    let c = [2 * low.c, low.c + high.c, 2 * high.c];
    let mut x = [0; 3];
    for (to, sum) in x.iter_mut().enumerate() {
        for q in 0..3 {
            *sum += OMEGA[q] * c[q] * phi[q] * E[q][to];
        }
    }
    x[2] -= 12 * high.c * high.upwind;
    x[0] += 12 * low.c * low.upwind;
    x
}

/// X(a, b) of one element, a inner.
fn eastward(winds: &Winds, stage: &[Nodes], i: usize, j: usize) -> Nodes {
    let phi = &stage[winds.shape.element(i, j)];
    let west = winds.shape.west_of(i);
    let mut x = [0; 9];
    for b in 0..3 {
        let line = along(
            std::array::from_fn(|a| phi[node(a, b)]),
            &End {
                c: winds.east(west, j),
                upwind: winds.upwind_east(stage, west, j, b),
            },
            &End {
                c: winds.east(i, j),
                upwind: winds.upwind_east(stage, i, j, b),
            },
        );
        for a in 0..3 {
            x[node(a, b)] = line[a];
        }
    }
    x
}

/// Y(a, b) of one element, a inner.
fn northward(winds: &Winds, stage: &[Nodes], i: usize, j: usize) -> Nodes {
    let phi = &stage[winds.shape.element(i, j)];
    let south = winds.shape.south_of(j);
    let mut y = [0; 9];
    for a in 0..3 {
        let line = along(
            std::array::from_fn(|b| phi[node(a, b)]),
            &End {
                c: winds.north(i, south),
                upwind: winds.upwind_north(stage, i, south, a),
            },
            &End {
                c: winds.north(i, j),
                upwind: winds.upwind_north(stage, i, j, a),
            },
        );
        for b in 0..3 {
            y[node(a, b)] = line[b];
        }
    }
    y
}

/// "t(a, b) = floor((ωb·X + ωa·Y) / (8192·ωaωb)) from that stage's φ": one
/// floor over both directions together.
pub fn tendencies(winds: &Winds, stage: &[Nodes]) -> Vec<Nodes> {
    let shape = winds.shape;
    let mut all = Vec::with_capacity(shape.elements());
    for j in 0..shape.ny {
        for i in 0..shape.nx {
            let x = eastward(winds, stage, i, j);
            let y = northward(winds, stage, i, j);
            all.push(std::array::from_fn(|n| {
                let (wa, wb) = (OMEGA[n % 3], OMEGA[n / 3]);
                floor_div(wb * x[n] + wa * y[n], 8192 * wa * wb)
            }));
        }
    }
    all
}
