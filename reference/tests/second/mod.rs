//! A second reading of a step, node by node from document 01 and its requests
//! 2026-02 and 2026-04 to 2026-06. It uses none of the program's own rules.

use super::rounding::to_nearest_even;
use reference::Shape;

type Nodes = [i64; 9];

const OMEGA: [i64; 3] = [1, 4, 1];
const WEIGHTS: Nodes = [1, 4, 1, 4, 16, 4, 1, 4, 1];
const E: [[i64; 3]; 3] = [[-3, 4, -1], [-1, 0, 1], [1, -4, 3]];

/// The wind of a face and the upwind value at one of its nodes.
type Face = (i64, i64);

pub struct Reading<'a> {
    pub shape: Shape,
    pub wind: &'a [i16],
}

/// What a step gives.
pub struct Stepped {
    /// Ten numbers an element, then the stored total (request 2026-06).
    pub numbers: Vec<u32>,
    /// Every G* in the wind's order.
    pub report: Vec<i32>,
    /// The clipped mass of each element.
    pub clipped: Vec<u64>,
    /// G − G* of each face.
    pub held: Vec<i64>,
}

impl Stepped {
    pub fn has_cut_face(&self) -> bool {
        self.held.iter().any(|&d| d != 0)
    }
}

impl Reading<'_> {
    /// The element's number; i and j wrap.
    fn at(&self, i: usize, j: usize) -> usize {
        j % self.shape.ny * self.shape.nx + i % self.shape.nx
    }

    /// The column and row of an element, or of the element that owns a face.
    fn place(&self, at: usize) -> (usize, usize) {
        let Shape { nx, ny, .. } = self.shape;
        (at % nx, at / nx % ny)
    }

    /// The east face of element (i, j) at b.
    fn east(&self, phi: &[Nodes], i: usize, j: usize, b: usize) -> Face {
        let c = self.wind[self.at(i, j)];
        let upwind = match c >= 0 {
            true => phi[self.at(i, j)][3 * b + 2],
            false => phi[self.at(i + 1, j)][3 * b],
        };
        (c.into(), upwind)
    }

    /// The north face of element (i, j) at a.
    fn north(&self, phi: &[Nodes], i: usize, j: usize, a: usize) -> Face {
        let c = self.wind[self.shape.nx * self.shape.ny + self.at(i, j)];
        let upwind = match c >= 0 {
            true => phi[self.at(i, j)][6 + a],
            false => phi[self.at(i, j + 1)][a],
        };
        (c.into(), upwind)
    }

    /// t(a, b) of element (i, j).
    fn tendency(&self, phi: &[Nodes], (i, j): (usize, usize), (a, b): (usize, usize)) -> i64 {
        let own = phi[self.at(i, j)];
        let west = self.east(phi, i + self.shape.nx - 1, j, b);
        let south = self.north(phi, i, j + self.shape.ny - 1, a);
        let row = [own[3 * b], own[3 * b + 1], own[3 * b + 2]];
        let column = [own[a], own[3 + a], own[6 + a]];
        let x = along(row, west, self.east(phi, i, j, b), a);
        let y = along(column, south, self.north(phi, i, j, a), b);
        (OMEGA[b] * x + OMEGA[a] * y).div_euclid(8192 * OMEGA[a] * OMEGA[b])
    }

    fn tendencies(&self, phi: &[Nodes]) -> Vec<Nodes> {
        let nodes =
            |at: usize| std::array::from_fn(|n| self.tendency(phi, self.place(at), (n % 3, n / 3)));
        (0..phi.len()).map(nodes).collect()
    }

    /// φ1, φ2 and the tentative ψ of every element.
    fn stages(&self, phi0: &[Nodes]) -> [Vec<Nodes>; 3] {
        let t0 = self.tendencies(phi0);
        let phi1 = raised(phi0, |at, n| t0[at][n]);
        let t1 = self.tendencies(&phi1);
        let phi2 = raised(phi0, |at, n| (t0[at][n] + t1[at][n]).div_euclid(4));
        let t2 = self.tendencies(&phi2);
        let psi = raised(phi0, |at, n| {
            (t0[at][n] + t1[at][n] + 4 * t2[at][n]).div_euclid(6)
        });
        [phi1, phi2, psi]
    }

    /// Every G, "to the nearest whole number". The product stays below 2^53,
    /// so it is exact, and so is a 4096th of it.
    fn amounts(&self, phi0: &[Nodes], phi1: &[Nodes], phi2: &[Nodes]) -> Vec<i64> {
        let amount = |face: usize| {
            let (i, j) = self.place(face);
            let upwind = |phi: &[Nodes], n| match face < phi0.len() {
                true => self.east(phi, i, j, n).1,
                false => self.north(phi, i, j, n).1,
            };
            let node = |n| upwind(phi0, n) + 4 * upwind(phi2, n) + upwind(phi1, n);
            let sum: i64 = (0..3).map(|n| OMEGA[n] * node(n)).sum();
            let product = i64::from(self.wind[face]) * sum;
            to_nearest_even(product as f64 / 4096.0) as i64
        };
        (0..2 * phi0.len()).map(amount).collect()
    }

    /// The element that gives where G is not 0.
    fn donor(&self, face: usize, g: i64) -> usize {
        let (i, j) = self.place(face);
        match (g > 0, face < self.shape.nx * self.shape.ny) {
            (true, _) => self.at(i, j),
            (false, true) => self.at(i + 1, j),
            (false, false) => self.at(i, j + 1),
        }
    }

    /// Every G*.
    fn cut(&self, amounts: &[i64], masses: &[i64]) -> Vec<i64> {
        let mut out = vec![0; masses.len()];
        for (face, &g) in amounts.iter().enumerate() {
            out[self.donor(face, g)] += g.abs();
        }
        let cut = |(face, &g): (usize, &i64)| {
            let giver = self.donor(face, g);
            match out[giver] <= masses[giver] {
                true => g,
                false => g.signum() * (g.abs() * masses[giver] / out[giver]),
            }
        };
        amounts.iter().enumerate().map(cut).collect()
    }

    /// A number of each of an element's faces: east, west, north, south.
    fn around(&self, faces: &[i64], at: usize) -> [i64; 4] {
        let Shape { nx, ny, .. } = self.shape;
        let (i, j) = self.place(at);
        let north = |j| faces[nx * ny + self.at(i, j)];
        [
            faces[at],
            faces[self.at(i + nx - 1, j)],
            north(j),
            north(j + ny - 1),
        ]
    }

    /// A step of the smoke with these numbers. By request 2026-05 a node on an
    /// east or north side rises by that face's q, one on a west or south side
    /// falls by it; without the request q is 0 everywhere.
    pub fn step(&self, part: &[u32], by_its_face: bool) -> Stepped {
        let (total, part) = part.split_last().unwrap();
        let values = |element: &[u32]| std::array::from_fn(|n| element[n].into());
        let phi0: Vec<Nodes> = part.chunks(10).map(values).collect();
        let rest = |at: usize| i64::from(part[10 * at + 9]);
        let masses: Vec<i64> = (0..phi0.len())
            .map(|at| sum(&phi0[at]) + rest(at))
            .collect();

        let [phi1, phi2, psi] = self.stages(&phi0);
        let amounts = self.amounts(&phi0, &phi1, &phi2);
        let moved = self.cut(&amounts, &masses);
        let held: Vec<i64> = (0..moved.len()).map(|f| amounts[f] - moved[f]).collect();
        let share = |&d: &i64| i64::from(by_its_face) * d.signum() * (d.abs() / 6);
        let shares: Vec<i64> = held.iter().map(share).collect();

        let (mut numbers, mut clipped) = (Vec::new(), Vec::new());
        for at in 0..psi.len() {
            let [east, west, north, south] = self.around(&shares, at);
            let psi = std::array::from_fn(|n| {
                psi[at][n] + [-west, 0, east][n % 3] + [-south, 0, north][n / 3]
            });
            let [east, west, north, south] = self.around(&moved, at);
            let target = masses[at] - east + west - north + south;
            numbers.extend(closed(&psi, target));
            clipped.push(below_zero(&psi, target));
        }
        // "a step leaves it"
        numbers.push(*total);
        let report = moved.iter().map(|&g| g as i32).collect();
        Stepped {
            numbers,
            report,
            clipped,
            held,
        }
    }
}

/// X at a, or Y at b: the line's three values, its ends, and where on it.
fn along(line: [i64; 3], low: Face, high: Face, to: usize) -> i64 {
    let c = [2 * low.0, low.0 + high.0, 2 * high.0];
    let inside: i64 = (0..3).map(|q| OMEGA[q] * c[q] * line[q] * E[q][to]).sum();
    match to {
        0 => inside + 12 * low.0 * low.1,
        2 => inside - 12 * high.0 * high.1,
        _ => inside,
    }
}

fn raised(phi: &[Nodes], by: impl Fn(usize, usize) -> i64) -> Vec<Nodes> {
    let mut phi = phi.to_vec();
    for (at, nodes) in phi.iter_mut().enumerate() {
        for (n, value) in nodes.iter_mut().enumerate() {
            *value += by(at, n);
        }
    }
    phi
}

fn sum(nodes: &Nodes) -> i64 {
    (0..9).map(|n| WEIGHTS[n] * nodes[n]).sum()
}

fn levelled(psi: &Nodes, target: i64) -> Nodes {
    psi.map(|value| value + (target - sum(psi)).div_euclid(36))
}

/// The ten numbers of a closed element.
fn closed(psi: &Nodes, target: i64) -> Vec<u32> {
    let values = levelled(psi, target).map(|value| value.max(0));
    let p = sum(&values);
    let values = match p > target {
        true => values.map(|value| value * target / p),
        false => values,
    };
    let rest = target - sum(&values);
    values.iter().chain([&rest]).map(|&n| n as u32).collect()
}

/// What the levelled numbers hold below 0. P leaves out just these, so it is P
/// minus their weighted sum.
pub fn below_zero(psi: &Nodes, target: i64) -> u64 {
    let levelled = levelled(psi, target);
    let missing = |n: usize| WEIGHTS[n] * (-levelled[n]).max(0);
    (0..9).map(missing).sum::<i64>() as u64
}
