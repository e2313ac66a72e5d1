//! Where the candidates come from: games and weights of every kind, equilibria and solutions, right and nearly so, and
//! faults.

use crate::candidates::Candidate;
use crate::cases::{self, Random};
use crate::document::{self, ACTIONS};
use crate::library::Claim;

/// Tolerances of every size, near which candidates are made.
pub const TOLERANCES: [f64; 8] = [5e-324, 1e-310, 1e-20, 1e-12, 1e-9, 1e-6, 0.25, 1.0];

/// Powers of two, down to the subnormals and up to where no sum of a few numbers overflows.
const SCALES: [u64; 6] = [
    0x3ff0_0000_0000_0000,
    0x3ff0_0000_0000_0000,
    0x0000_0004_0000_0000,
    0x0180_0000_0000_0000,
    0x3d70_0000_0000_0000,
    0x7f60_0000_0000_0000,
];

const PENNIES: [f64; 4] = [1.0, -1.0, -1.0, 1.0];

/// Weights 0 and a difference that overflows, document 01's game; matching pennies with equal weights, and with one.
pub fn known_gains() -> [(Candidate, f64); 3] {
    let other = PENNIES.map(|payoff| -payoff);
    let overflow = [1e308, -1e308];
    let one = [1.0, 0.0, 0.0, 0.0];
    [
        (
            Candidate::new(2, 1, [&overflow, &[0.0; 2], &[0.0; 2]]),
            f64::INFINITY,
        ),
        (Candidate::new(2, 2, [&PENNIES, &other, &[0.25; 4]]), 0.0),
        (Candidate::new(2, 2, [&PENNIES, &other, &one]), 2.0),
    ]
}

/// Matching pennies with its value and with others; 1 - 2^-53 for the value 1.0, where value - tolerance is rounded down
/// to it, and where it is rounded up.
pub fn known_claims() -> [(Candidate, Claim, bool); 5] {
    let pennies = || Candidate::new(2, 2, [&PENNIES, &[0.5; 2], &[0.5; 2]]);
    let below = || Candidate::new(1, 1, [&[1.0f64.next_down()], &[1.0], &[1.0]]);
    let claim = |value, tolerance| Claim { value, tolerance };
    let step = 1.0 - 1.0f64.next_down();
    [
        (pennies(), claim(0.0, 0.0), true),
        (pennies(), claim(0.25, 0.125), false),
        (pennies(), claim(-0.25, 0.125), false),
        (below(), claim(1.0, 0.75 * step), true),
        (below(), claim(1.0, 0.25 * step), false),
    ]
}

/// Small sizes.
pub fn small_sizes(random: &mut Random) -> [usize; 2] {
    [1 + random.below(4), 1 + random.below(4)]
}

/// Sizes up to the limit, with 1 and the limit often, also both at the limit.
pub fn wide_sizes(random: &mut Random) -> [usize; 2] {
    if random.below(8) == 0 {
        return [ACTIONS; 2];
    }
    [(); 2].map(|()| match random.below(4) {
        0 => 1 + random.below(4),
        1 => 1,
        2 => ACTIONS,
        _ => 1 + random.below(ACTIONS),
    })
}

/// A tolerance to accept or to refuse.
pub fn tolerance(random: &mut Random) -> f64 {
    match random.below(6) {
        0 => random.non_finite(),
        1 => random.finite(),
        2 => -random.pick(&TOLERANCES),
        3 => random.pick(&[0.0, -0.0, f64::MAX, 1e300]),
        _ => random.pick(&TOLERANCES),
    }
}

/// The kinds of numbers: small and whole, few values, below 1, subnormal, the greatest, any.
const KINDS: usize = 8;
const SUBNORMAL: usize = 5;
const GREATEST: usize = 6;

fn number(random: &mut Random, kind: usize) -> f64 {
    let part = random.word() & 0x800f_ffff_ffff_ffff;
    match kind {
        0 | 1 => random.below(9) as f64 - 4.0,
        2 => random.pick(&cases::VALUES),
        3 | 4 => random.unit() - 0.5,
        SUBNORMAL => f64::from_bits(part),
        GREATEST => f64::from_bits(part | 0x7fe0_0000_0000_0000),
        _ => random.finite(),
    }
}

/// Of one kind.
pub fn payoffs(random: &mut Random, cells: usize) -> Vec<f64> {
    let kind = random.below(KINDS);
    (0..cells).map(|_| number(random, kind)).collect()
}

/// Numbers whose sum is 1, but for rounding.
pub fn distribution(random: &mut Random, length: usize) -> Vec<f64> {
    let parts: Vec<f64> = (0..length).map(|_| random.unit() + 1e-3).collect();
    let sum = document::sum(parts.iter().copied());
    parts.iter().map(|part| part / sum).collect()
}

/// A distribution; one cell's; weights that are no distribution. Some with a negative one among them.
fn weights(random: &mut Random, cells: usize) -> Vec<f64> {
    let kind = random.below(12);
    let mut weights = match kind {
        0..=3 => distribution(random, cells),
        _ => (0..cells)
            .map(|_| match kind {
                4 => random.below(4) as f64,
                5 => -0.0,
                6 => random.pick(&[0.0, -0.0]),
                7 => number(random, SUBNORMAL).abs(),
                8 => number(random, GREATEST).abs(),
                9 => random.finite().abs(),
                _ => 0.0,
            })
            .collect(),
    };
    let place = random.below(cells);
    if kind == 10 {
        weights[place] = 1.0;
    }
    if random.below(16) == 0 {
        weights[place] = -random.pick(&TOLERANCES);
    }
    weights
}

/// Any two tables and weights.
pub fn game(random: &mut Random, [m, n]: [usize; 2]) -> Candidate {
    let lists = [
        payoffs(random, m * n),
        payoffs(random, m * n),
        weights(random, m * n),
    ];
    Candidate { m, n, lists }
}

/// Weights on cells of which no two share a row or a column, each of them player 1's best in its column and player 2's
/// in its row, so that nobody gains; in some games there is one that is a little better.
pub fn settled(random: &mut Random, [m, n]: [usize; 2]) -> Candidate {
    let mut candidate = game(random, [m, n]);
    let [u1, u2, weights] = &mut candidate.lists;
    weights.fill_with(|| random.pick(&[0.0, -0.0]));
    let cells = 1 + random.below(m.min(n));
    let rows = random.places(cells, m);
    let columns = random.places(cells, n);
    for (i, j) in std::iter::zip(rows, columns) {
        let cell = i * n + j;
        let column: Vec<usize> = (0..m).map(|k| k * n + j).collect();
        let row: Vec<usize> = (0..n).map(|k| i * n + k).collect();
        for (table, line) in [(&mut *u1, column), (&mut *u2, row)] {
            table[cell] = line
                .iter()
                .fold(table[cell], |best, place| greater(best, table[*place]));
            let better = random.pick(&line);
            if better != cell && random.below(4) == 0 {
                table[better] = table[cell].next_up().min(f64::MAX);
            }
        }
        weights[cell] = random.unit();
    }
    candidate
}

/// The greater number, the first of both zeros and of a NaN and a number.
fn greater(first: f64, second: f64) -> f64 {
    if second > first {
        second
    } else {
        first
    }
}

/// A square game and its solution.
struct Core {
    payoffs: Vec<f64>,
    p1: Vec<f64>,
    p2: Vec<f64>,
    value: f64,
}

/// A game of at most so many rows: a saddle point; 2 × 2 with mixed strategies; rows that are one row turned around, as
/// in matching pennies and in rock, paper, scissors.
fn core(random: &mut Random, most: usize) -> Core {
    match random.below(4) {
        1 if most > 1 => mixed(random),
        2 | 3 if most > 1 => {
            let size = match random.below(8) {
                0 => most,
                _ => 2 + random.below((most - 1).min(4)),
            };
            cyclic(random, size)
        }
        _ => {
            let kind = random.below(KINDS);
            let value = number(random, kind);
            Core {
                payoffs: vec![value],
                p1: vec![1.0],
                p2: vec![1.0],
                value,
            }
        }
    }
}

fn mixed(random: &mut Random) -> Core {
    let kind = random.below(5);
    let more = |random: &mut Random| match kind {
        0..=2 => 1.0 + random.below(3) as f64,
        _ => random.unit() + 1e-3,
    };
    let [b, c] = [number(random, kind), number(random, kind)];
    let [a, d] = [(); 2].map(|()| greater(b, c) + more(random));
    let sum = (a - b) + (d - c);
    let p1 = vec![(d - c) / sum, (a - b) / sum];
    Core {
        value: p1[0] * a + p1[1] * c,
        p2: vec![(d - b) / sum, (a - c) / sum],
        p1,
        payoffs: vec![a, b, c, d],
    }
}

fn cyclic(random: &mut Random, size: usize) -> Core {
    let kind = random.below(5);
    let row: Vec<f64> = (0..size).map(|_| number(random, kind)).collect();
    let part = 1.0 / size as f64;
    Core {
        payoffs: around(&row),
        p1: vec![part; size],
        p2: vec![part; size],
        value: document::sum(row.iter().copied()) * part,
    }
}

/// A row, and below it the same one turned around by one place more in each row.
pub fn around<T: Copy>(row: &[T]) -> Vec<T> {
    let size = row.len();
    (0..size * size)
        .map(|cell| row[(cell % size + size - cell / size) % size])
        .collect()
}

/// A minimax candidate that is right up to rounding, and the value: a core at some rows and columns, the other rows no
/// better for player 1, the other columns no better for player 2, and anything where those meet; or one number in every
/// cell and any distributions.
pub fn solved(random: &mut Random, [m, n]: [usize; 2]) -> (Candidate, f64) {
    let core = core(random, m.min(n));
    let size = core.p1.len();
    let scale = f64::from_bits(random.pick(&SCALES));
    let value = (core.value * scale).clamp(-f64::MAX, f64::MAX);
    if random.below(5) == 0 {
        let lists = [
            vec![value; m * n],
            distribution(random, m),
            distribution(random, n),
        ];
        return (Candidate { m, n, lists }, value);
    }
    let kind = random.below(KINDS);
    let [rows, columns] = [m, n].map(|limit| random.places(size, limit));
    let steps = random.below(3) as f64;
    let mut lists = [
        vec![0.0; m * n],
        vec![random.pick(&[0.0, -0.0]); m],
        vec![random.pick(&[0.0, -0.0]); n],
    ];
    for (place, i) in rows.iter().enumerate() {
        lists[1][*i] = core.p1[place];
    }
    for (place, j) in columns.iter().enumerate() {
        lists[2][*j] = core.p2[place];
    }
    for (cell, payoff) in lists[0].iter_mut().enumerate() {
        let row = rows.iter().position(|i| *i == cell / n);
        let column = columns.iter().position(|j| *j == cell % n);
        let step = steps * random.unit() * scale;
        let number = match (row, column) {
            (Some(row), Some(column)) => core.payoffs[row * size + column] * scale,
            (Some(_), None) => value + step,
            (None, Some(_)) => value - step,
            (None, None) => number(random, kind),
        };
        *payoff = number.clamp(-f64::MAX, f64::MAX);
    }
    (Candidate { m, n, lists }, value)
}

/// The tolerance that a candidate needs, but for the rounding of value ± tolerance.
pub fn needed(candidate: &Candidate, value: f64) -> f64 {
    let [payoffs, p1, p2] = candidate.lists();
    let vectors = [p1, p2].map(document::off_one).into_iter();
    let entries = p1.iter().chain(p2).map(|entry| -entry);
    let columns = document::columns(payoffs, p1, candidate.n);
    let rows = document::rows(payoffs, p2);
    vectors
        .chain(entries)
        .chain(columns.iter().map(|column| value - column))
        .chain(rows.iter().map(|row| row - value))
        .fold(0.0, greater)
}

/// A solved game with a tolerance next to the one that it needs.
pub fn passing(random: &mut Random, sizes: [usize; 2]) -> (Candidate, Claim) {
    let (candidate, value) = solved(random, sizes);
    let tolerance = needed(&candidate, value).next_up();
    (candidate, Claim { value, tolerance })
}

/// The candidate with its value, an entry, two entries or a payoff moved by about the tolerance.
pub fn moved(
    random: &mut Random,
    candidate: &Candidate,
    value: f64,
    tolerance: f64,
) -> (Candidate, Claim) {
    let mut candidate = candidate.clone();
    let mut claim = Claim { value, tolerance };
    let step = tolerance
        * random.pick(&[0.5, 1.0, 1.0 + f64::EPSILON, 1.5, 2.0])
        * random.pick(&[1.0, -1.0]);
    let list = random.below(2) + 1;
    let move_one = |random: &mut Random, list: &mut [f64], step: f64| {
        let place = random.below(list.len());
        list[place] = (list[place] + step).clamp(-f64::MAX, f64::MAX);
    };
    match random.below(5) {
        0 => claim.value = (value + step).clamp(-f64::MAX, f64::MAX),
        1 => move_one(random, &mut candidate.lists[list], step),
        2 => move_one(random, &mut candidate.lists[0], step),
        _ => {
            move_one(random, &mut candidate.lists[list], step);
            move_one(random, &mut candidate.lists[list], -step);
        }
    }
    (candidate, claim)
}

/// Vectors of whole numbers whose sums are near 1, and a tolerance that lets them pass: where payoffs are large an
/// expectation overflows, and value ± tolerance may do so.
pub fn loose(random: &mut Random, [m, n]: [usize; 2]) -> (Candidate, Claim) {
    let kind = random.pick(&[0, SUBNORMAL, GREATEST, GREATEST, KINDS]);
    let payoffs = (0..m * n).map(|_| number(random, kind)).collect();
    let vectors = [m, n].map(|length| {
        let mut vector: Vec<f64> = (0..length).map(|_| random.below(4) as f64 - 1.0).collect();
        let place = random.below(length);
        vector[place] += 1.0 - document::sum(vector.iter().copied());
        vector
    });
    let [p1, p2] = vectors;
    let claim = Claim {
        value: random.pick(&[0.0, 1e308, -1e308, f64::MAX, -f64::MAX]),
        tolerance: random.pick(&[2.0, 1e300, 1e308, f64::MAX, f64::MAX]),
    };
    let lists = [payoffs, p1, p2];
    (Candidate { m, n, lists }, claim)
}

/// One thing wrong with the sizes or the lists: a list one short, one long, a row short, with a number that isn't
/// finite, or another size.
pub fn fault(random: &mut Random, candidate: &mut Candidate) {
    let list = &mut candidate.lists[random.below(3)];
    let last = list.len() - 1;
    match random.below(6) {
        0 => list.truncate(last),
        1 => list.push(0.0),
        2 => list.truncate(list.len().saturating_sub(candidate.n)),
        3 | 4 => {
            let place = random.pick(&[0, last, last / 2]);
            let other = random.non_finite();
            list[place] = random.pick(&[f64::INFINITY, f64::NEG_INFINITY, other]);
        }
        _ => {
            let size = match random.below(2) {
                0 => &mut candidate.m,
                _ => &mut candidate.n,
            };
            *size = random.pick(&[0, *size - 1, *size + 1, ACTIONS + 1, 1 << 63, usize::MAX]);
        }
    }
}
