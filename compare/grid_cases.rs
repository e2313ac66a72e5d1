//! Where the whole-number grids come from, made in integers: any, with weights where nobody gains,
//! with dominated strategies, with sums whose terms cancel.

use crate::candidate_cases;
use crate::candidates::Candidate;
use crate::cases::Random;
use crate::document::ACTIONS;
use crate::grids::Grids;
use crate::tally::sure;

/// The greatest payoff; the least is its negative.
pub const END: i64 = 1 << 20;
/// The parts of the weight 1.
pub const ONE: i64 = 1 << 16;

/// Rows and columns; both players' payoffs and the weights' parts, flat by rows.
#[derive(Clone)]
pub struct Grid {
    pub counts: [usize; 2],
    pub payoffs: [Vec<i64>; 2],
    pub parts: Vec<i64>,
}

impl Grid {
    /// As a check is handed it, a zero with either sign.
    pub fn candidate(&self, random: &mut Random) -> Candidate {
        let mut floats = |list: &[i64], one: i64| {
            let float = |number: &i64| match number {
                0 => random.pick(&[0.0, -0.0]),
                _ => *number as f64 / one as f64,
            };
            list.iter().map(float).collect()
        };
        let [u1, u2] = &self.payoffs;
        let lists = [floats(u1, 1), floats(u2, 1), floats(&self.parts, ONE)];
        let [m, n] = self.counts;
        Candidate { m, n, lists }
    }

    /// Its rows as columns, and its player 2 as player 1.
    pub fn transposed(&self) -> Self {
        let [m, n] = self.counts;
        let transposed = |list: &[i64]| -> Vec<i64> {
            let cells = (0..n).flat_map(|j| (0..m).map(move |i| i * n + j));
            cells.map(|cell| list[cell]).collect()
        };
        Self {
            counts: [n, m],
            payoffs: [transposed(&self.payoffs[1]), transposed(&self.payoffs[0])],
            parts: transposed(&self.parts),
        }
    }

    /// A row of one of its lists.
    pub fn row<'a>(&self, list: &'a [i64], row: usize) -> &'a [i64] {
        &list[row * self.counts[1]..][..self.counts[1]]
    }

    /// Two rows with the weights of the first, payoffs times a sign, those of player 2 all 0.
    pub fn alone(&self, i: usize, k: usize, sign: i64) -> Self {
        let both = [i, k].map(|row| self.row(&self.payoffs[0], row)).concat();
        let both = both.iter().map(|payoff| sign * payoff).collect();
        let zeros = vec![0; self.counts[1]];
        Self {
            counts: [2, zeros.len()],
            payoffs: [both, zeros.repeat(2)],
            parts: [self.row(&self.parts, i), &zeros].concat(),
        }
    }

    /// Where a cell has weight, player 1's payoff is raised to the greatest of its column: player 1
    /// has no gain.
    pub fn settled(&self) -> Self {
        let mut settled = self.clone();
        let n = self.counts[1];
        for j in 0..n {
            let column = self.payoffs[0].iter().skip(j).step_by(n);
            let greatest = *column.max().unwrap();
            for cell in (j..self.parts.len()).step_by(n) {
                if self.parts[cell] > 0 {
                    settled.payoffs[0][cell] = greatest;
                }
            }
        }
        settled
    }

    /// Makes one row pay player 1 less than another in every column, and takes its weights away;
    /// none where there is one row alone.
    fn dominated(&mut self, random: &mut Random) -> Option<usize> {
        let [m, n] = self.counts;
        let [low, high] = random.places(2.min(m), m)[..] else {
            return None;
        };
        for j in 0..n {
            let [low, high] = [low * n + j, high * n + j];
            let u1 = &mut self.payoffs[0];
            u1[low] = u1[low].min(END - 1);
            u1[high] = u1[high].max(u1[low] + 1);
            self.parts[low] = 0;
        }
        Some(low)
    }
}

/// A number from 0 up to a greatest one.
fn up_to(random: &mut Random, greatest: i64) -> i64 {
    random.below(greatest as usize + 1) as i64
}

/// Of one kind: few values, any, the ends and the numbers beside them, all 0.
fn payoffs(random: &mut Random, cells: usize) -> Vec<i64> {
    let kind = random.below(4);
    let payoff = |_| match kind {
        0 => up_to(random, 4) - 2,
        1 => up_to(random, 2 * END) - END,
        2 => (END - up_to(random, 1)) * random.pick(&[1, -1]),
        _ => 0,
    };
    (0..cells).map(payoff).collect()
}

/// Any, small, 0 and 1, all 1, a distribution, on one cell, all 0.
fn parts(random: &mut Random, cells: usize) -> Vec<i64> {
    let kind = random.below(7);
    let part = |_| match kind {
        0 | 4 => up_to(random, ONE),
        1 => up_to(random, 3),
        2 => up_to(random, 1) * ONE,
        3 => ONE,
        _ => 0,
    };
    let mut parts: Vec<i64> = (0..cells).map(part).collect();
    match kind {
        4 => {
            // The whole is cut at these places.
            parts[0] = ONE;
            parts.sort_unstable();
            for cell in (1..cells).rev() {
                parts[cell] -= parts[cell - 1];
            }
        }
        5 => parts[random.below(cells)] = 1 + up_to(random, ONE - 1),
        _ => (),
    }
    parts
}

const KNOWN: &str = "a grid whose answer is known has another one";

pub fn run(grids: &mut Grids) {
    let mut random = Random(17);
    greatest(grids, &mut random);
    for turn in 0..16_000 {
        let small = turn % 32 > 0;
        let sizes = match small {
            true => candidate_cases::small_sizes(&mut random),
            false => candidate_cases::wide_sizes(&mut random),
        };
        let cells = sizes[0] * sizes[1];
        let grid = Grid {
            counts: sizes,
            payoffs: [(); 2].map(|()| payoffs(&mut random, cells)),
            parts: parts(&mut random, cells),
        };
        grids.compare(&mut random, &grid);
        if small {
            grids.each_gain(&mut random, &grid);
            grids.each_gain(&mut random, &grid.transposed());
        }
        dominated(grids, &mut random, grid);
        cancelled(grids, &mut random, sizes[0].min(sizes[1]));
    }
}

/// The greatest sum that there is: 64 times the whole range.
fn greatest(grids: &mut Grids, random: &mut Random) {
    let cells = ACTIONS * ACTIONS;
    let mut grid = Grid {
        counts: [ACTIONS; 2],
        payoffs: [vec![END; cells], vec![0; cells]],
        parts: vec![ONE; cells],
    };
    grid.payoffs[0][..ACTIONS].fill(-END);
    sure(grids.compare(random, &grid) == 1 << 43, KNOWN);
}

/// The grid with a dominated strategy of one player, of both or of none, and weights elsewhere such
/// that nobody gains; then with one part of weight on such a strategy, where somebody does.
fn dominated(grids: &mut Grids, random: &mut Random, mut grid: Grid) {
    let rows = [(); 2].map(|()| {
        let row = match random.below(3) {
            0 => None,
            _ => grid.dominated(random),
        };
        grid = grid.settled().transposed();
        row
    });
    sure(grids.compare(random, &grid) == 0, KNOWN);
    for row in rows {
        if let Some(row) = row {
            let mut weighted = grid.clone();
            let n = grid.counts[1];
            weighted.parts[row * n + random.below(n)] = 1;
            sure(grids.compare(random, &weighted) > 0, KNOWN);
        }
        grid = grid.transposed();
    }
}

/// For each player one row turned around, and the same weight everywhere: each gain is 0, since the
/// terms of its sum cancel. Then with one part less somewhere.
fn cancelled(grids: &mut Grids, random: &mut Random, size: usize) {
    let mut grid = Grid {
        counts: [size; 2],
        payoffs: [(); 2].map(|()| candidate_cases::around(&payoffs(random, size))),
        parts: vec![1 + up_to(random, ONE - 1); size * size],
    };
    sure(grids.compare(random, &grid) == 0, KNOWN);
    grid.parts[random.below(size * size)] -= 1;
    grids.compare(random, &grid);
}
